`kmap compile` makes the tables of a text, and `kmap dump` prints a text of the tables.

  $ printf "030 'a' 'A' nop nop 'a' 'A' nop nop C\n" > letter
  $ kmap compile letter tables
  $ wc -c < tables
  15524
  $ kmap dump tables
  000 nul    nul    nul    nul    nul    nul    nul    nul    O
  001 nul    nul    nul    nul    nul    nul    nul    nul    O
  002 nul    nul    nul    nul    nul    nul    nul    nul    O
  003 nul    nul    nul    nul    nul    nul    nul    nul    O
  004 nul    nul    nul    nul    nul    nul    nul    nul    O
  005 nul    nul    nul    nul    nul    nul    nul    nul    O
  006 nul    nul    nul    nul    nul    nul    nul    nul    O
  007 nul    nul    nul    nul    nul    nul    nul    nul    O
  008 nul    nul    nul    nul    nul    nul    nul    nul    O
  009 nul    nul    nul    nul    nul    nul    nul    nul    O
  010 nul    nul    nul    nul    nul    nul    nul    nul    O
  011 nul    nul    nul    nul    nul    nul    nul    nul    O
  012 nul    nul    nul    nul    nul    nul    nul    nul    O
  013 nul    nul    nul    nul    nul    nul    nul    nul    O
  014 nul    nul    nul    nul    nul    nul    nul    nul    O
  015 nul    nul    nul    nul    nul    nul    nul    nul    O
  016 nul    nul    nul    nul    nul    nul    nul    nul    O
  017 nul    nul    nul    nul    nul    nul    nul    nul    O
  018 nul    nul    nul    nul    nul    nul    nul    nul    O
  019 nul    nul    nul    nul    nul    nul    nul    nul    O
  020 nul    nul    nul    nul    nul    nul    nul    nul    O
  021 nul    nul    nul    nul    nul    nul    nul    nul    O
  022 nul    nul    nul    nul    nul    nul    nul    nul    O
  023 nul    nul    nul    nul    nul    nul    nul    nul    O
  024 nul    nul    nul    nul    nul    nul    nul    nul    O
  025 nul    nul    nul    nul    nul    nul    nul    nul    O
  026 nul    nul    nul    nul    nul    nul    nul    nul    O
  027 nul    nul    nul    nul    nul    nul    nul    nul    O
  028 nul    nul    nul    nul    nul    nul    nul    nul    O
  029 nul    nul    nul    nul    nul    nul    nul    nul    O
  030 'a'    'A'    nop    nop    'a'    'A'    nop    nop    C

What was dumped makes the same tables, of this text and of an example:
  $ kmap dump tables > printed
  $ kmap compile printed again
  $ cmp tables again
  $ kmap compile "$examples/us.kbd" us
  $ kmap dump us > us.text
  $ kmap compile us.text us.again
  $ cmp us us.again

Tables of no keys, and a part of a table file:
  $ head -c 15524 /dev/zero > zeros
  $ kmap dump zeros
  $ head -c 4096 tables > part
  $ kmap dump part
  ! kmap: tables offset 4096: Short
  [1]

A text with a fault leaves an old file as it was:
  $ printf "1 '" > cut
  $ echo old > kept
  $ kmap compile cut kept
  ! kmap: text line 1 offset 3: EndInside
  [1]
  $ cat kept
  old

Narrow files, whose size is another one. The option stands where it likes:
  $ kmap compile letter small --narrow
  $ wc -c < small
  4139
  $ kmap dump small --narrow > again
  $ cmp printed again
  $ kmap dump small
  ! kmap: tables offset 4139: Short
  [1]
  $ kmap dump tables --narrow
  ! kmap: tables offset 4139: Long
  [1]
  $ kmap compile letter --narrow small

A character that is too wide for a narrow file, of a key and of an accent, leaves an empty file:
  $ echo "0 'a' 'A' SOH soh fkey1 scr16 0x20ac DEL b" > euro
  $ kmap compile euro kept --narrow
  ! kmap: cell too wide at slot 0 column 6
  [1]
  $ wc -c < kept
  0
  $ echo "dacu 0x20ac ( 'e' 0x20ac )" > accent
  $ kmap compile accent kept --narrow
  ! kmap: accent too wide at accent 1 number 0
  [1]
  $ wc -c < kept
  0
  $ [ ! -e kept.kmap-new ]

But a text with a fault leaves the old file:
  $ echo old > kept
  $ kmap compile cut kept --narrow
  ! kmap: text line 1 offset 3: EndInside
  [1]
  $ cat kept
  old

A key of which one character is too wide, and nothing else: where the file is there before and where it isn't.
  $ printf %s "0 'a' 'A' SOH soh fkey1 scr16 0x20ac DEL b" > euro
  $ echo old > there
  $ kmap compile euro there --narrow
  ! kmap: cell too wide at slot 0 column 6
  [1]
  $ wc -c < there
  0
  $ kmap compile euro absent --narrow
  ! kmap: cell too wide at slot 0 column 6
  [1]
  $ wc -c < absent
  0
