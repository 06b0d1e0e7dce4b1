`kmap lint` on texts that are no keymap texts, on what other programs call a key, and on many faults.

A text that is taken for another one has one fault, with what it is taken for. Files of tables:
  $ kmap compile "$examples/de.kbd" tables && kmap compile --narrow "$examples/us.kbd" narrow
  $ kmap lint --quiet tables narrow | grep -a -o '; .*'
  ; this is a table file: kmap dump prints its text [BadWord]
  ; this is a table file: kmap dump prints its text [BadWord]

Compressed ones, and what is no text:
  $ printf '\037\213\010\000abc' > t.gz
  $ printf 'PK\003\004abc' > t.zip
  $ printf '\050\265\057\375abc' > t.zst
  $ printf '30 zz\n\n\000' > t.bin
  $ kmap lint --quiet t.gz t.zip t.zst t.bin | grep '^t'
  t.gz:1:1: error: the byte 0x1f begins no word; the text is compressed [BadByte]
  t.zip:1:1: error: PK means nothing; the text is compressed [BadWord]
  t.zst:1:1: error: ( stands where the number of a slot or the name of an accent is wanted; the text is compressed [Unexpected]
  t.bin:1:4: error: zz means nothing; a character is written as 'x' or 0xh, a cell that gives nothing as nop; this is no text [BadWord]
  $ { printf '30 zz\n'; head -c 505 /dev/zero | tr '\000' ' '; printf '\000'; } > t
  $ kmap lint --quiet t | grep -c 'this is no text'
  1
  $ { printf '30 zz\n'; head -c 506 /dev/zero | tr '\000' ' '; printf '\000'; } > t
  $ kmap lint --quiet t | grep -c 'this is no text'
  0
  [1]

UTF-16 in either order, once:
  $ printf '\377\3763\0000\000\n\0003\000' > t
  $ kmap lint --quiet t | sed 1q
  t:1:1: error: the text is UTF-16; save it as UTF-8 [BadByte]
  $ kmap lint --quiet t | grep -a -c error
  1
  $ printf '\376\377\0003\0000\000\n\0003' > t
  $ kmap lint --quiet t | grep -a error
  t:1:1: error: the text is UTF-16; save it as UTF-8 [BadByte]

Texts of other programs, in any letter case, with what low lines join to the word:
  $ for word in keymaps keycode charset include strings string compose plain altgr alt_is_meta; do
  >     printf '# a\n\t%s 1\nzz\n' $word > t; kmap lint --quiet t
  > done | grep -o ';.*' | sort | uniq -c | sed 's/^ *//'
  9 ; this looks like a keymap for loadkeys [BadWord]
  1 ; this looks like a keymap for loadkeys [Unexpected]
  $ for word in default Partial hidden xkb_keymap xkb_symbols XKB_KEYCODES; do
  >     echo "$word 1" > t; kmap lint --quiet t
  > done | grep -o ';.*' | sort | uniq -c | sed 's/^ *//'
  6 ; this looks like a text for xkb: ckbcomp -freebsd makes keymaps [BadWord]
  $ for word in clear keysym add remove pointer; do
  >     echo "$word 1" > t; kmap lint --quiet t
  > done | grep -o ';.*' | sort | uniq -c | sed 's/^ *//'
  5 ; this looks like a text for xmodmap [BadWord]

Another comment sign:
  $ for sign in '!' ';' '//' '/*'; do echo "$sign 1" > t; kmap lint --quiet t; done | grep error
  t:1:1: error: ! begins no word; a character that is meant is quoted: '!'; a comment begins with # [BadByte]
  t:1:1: error: ; begins no word; a character that is meant is quoted: ';'; a comment begins with # [BadByte]
  t:1:1: error: / begins no word; a character that is meant is quoted: '/'; a comment begins with # [BadByte]
  t:1:1: error: / begins no word; a character that is meant is quoted: '/'; a comment begins with # [BadByte]
  $ printf '/1\n!\n' > t
  $ kmap lint --quiet t | grep error
  t:1:1: error: / begins no word; a character that is meant is quoted: '/' [BadByte]
  t:2:1: error: ! begins no word; a character that is meant is quoted: '!' [BadByte]

No hint stands behind a word that is no first one of its line, in a definition, or behind a later fault:
  $ printf '30 nop nop nop nop nop nop nop nop O keymaps\n' > t
  $ kmap lint --quiet t | grep error
  t:1:38: error: keymaps means nothing [BadWord]
  $ printf '30 nop\n  keymaps\nkeycode 1\n' > t
  $ kmap lint --quiet t | grep error
  t:2:3: error: keymaps means nothing; a character is written as 'x' or 0xh, a cell that gives nothing as nop [BadWord]
  t:3:1: error: keycode means nothing [BadWord]
  $ echo keymapss > t
  $ kmap lint --quiet t | grep error
  t:1:1: error: keymapss means nothing [BadWord]

More than twenty faults:
  $ for number in 1 2 3 4 5 6 7 8 9 10 11 12 13 14 15 16 17 18 19 20; do echo zz; done > t
  $ kmap lint t | grep -c error
  20
  ! 20 errors
  $ kmap lint --quiet t | tail -n 1
    ^
  $ echo zz >> t
  $ kmap lint t | sed -n '58,$p'
  t:20:1: error: zz means nothing [BadWord]
    zz
    ^
  t:1:1: note: more faults follow
  ! 20 errors

The words of others, each where its name may stand:
  $ words='shift Shift_L ShiftL Shift_R ShiftR Control Control_L CtrlL Control_R CtrlR AltGr
  >     ISO_Level3_Shift Mode_switch alta shifta ctrla Caps CapsLock Caps_Lock NumLock Num_Lock ScrollLock
  >     Scroll_Lock AltGr_Lock ISO_Next_Group Escape Tab ISO_Left_Tab BackSpace Delete Return Enter KP_Enter
  >     Linefeed space VoidSymbol NoSymbol none F1 F12 Console_1 Console_16 Incr_Console Home Up Left Right
  >     Down Prior Page_Up Next Page_Down End Insert Print Sys_Req grave dead_grave acute dead_acute circumflex
  >     dead_circumflex tilde dead_tilde diaeresis dead_diaeresis cedilla dead_cedilla macron dead_macron breve
  >     dead_breve abovedot dead_abovedot abovering dead_abovering doubleacute dead_doubleacute stroke
  >     dead_stroke ogonek dead_ogonek caron dead_caron'
  $ for word in $words; do
  >     echo "30 $word" > t
  >     echo "$word$(kmap lint --quiet t | sed -n 's/.*did you mean\( .*\) \[.*/\1/p')"
  > done | paste -s -d ,
  shift lshift,Shift_L lshift,ShiftL lshift,Shift_R rshift,ShiftR rshift,Control lctrl,Control_L lctrl,CtrlL lctrl,Control_R rctrl,CtrlR rctrl,AltGr ralt,ISO_Level3_Shift ralt,Mode_switch ralt,alta lalt,shifta lshift,ctrla lctrl,Caps clock,CapsLock clock,Caps_Lock clock,NumLock nlock,Num_Lock nlock,ScrollLock slock,Scroll_Lock slock,AltGr_Lock alock,ISO_Next_Group alock,Escape esc,Tab ht,ISO_Left_Tab btab,BackSpace bs,Delete del,Return cr,Enter cr,KP_Enter cr,Linefeed nl,space ' ',VoidSymbol nop,NoSymbol nop,none nop,F1 fkey01,F12 fkey12,Console_1 scr01,Console_16 scr16,Incr_Console nscr,Home fkey49,Up fkey50,Left fkey53,Right fkey55,Down fkey58,Prior fkey51,Page_Up fkey51,Next fkey59,Page_Down fkey59,End fkey57,Insert fkey60,Print pscr,Sys_Req pscr,grave dgra,dead_grave dgra,acute dacu,dead_acute dacu,circumflex dcir,dead_circumflex dcir,tilde dtil,dead_tilde dtil,diaeresis duml,dead_diaeresis duml,cedilla dced,dead_cedilla dced,macron dmac,dead_macron dmac,breve dbre,dead_breve dbre,abovedot ddot,dead_abovedot ddot,abovering drin,dead_abovering drin,doubleacute ddac,dead_doubleacute ddac,stroke dsla,dead_stroke dsla,ogonek dogo,dead_ogonek dogo,caron dcar,dead_caron dcar
  $ printf 'dacu Escape\ndacu 180 ( space Tab ) ( Shift_L\nacute 180\nEscape\n30 nop nop nop nop nop nop nop nop Caps\n' > t
  $ kmap lint --quiet t | grep error
  t:1:6: error: Escape means nothing; did you mean esc [BadWord]
  t:2:12: error: space means nothing; did you mean ' ' [BadWord]
  t:3:1: error: acute means nothing; did you mean dacu [BadWord]
  t:4:1: error: Escape means nothing [BadWord]
  t:5:36: error: Caps means nothing; a lock letter is O, C, N or B [BadWord]
  $ printf '30 Console_17\n30 F0\n30 Shift_X\n' > t
  $ kmap lint --quiet t | grep -o 'error.*'
  error: Console means nothing; a character is written as 'x' or 0xh, a cell that gives nothing as nop [BadWord]
  error: F0 means nothing; a character is written as 'x' or 0xh, a cell that gives nothing as nop [BadWord]
  error: Shift means nothing; a character is written as 'x' or 0xh, a cell that gives nothing as nop [BadWord]
