`kmap lint` in its formats, the count of errors and warnings, and colours.

Three texts. The name of the second one has what parts of a line end with, and its line 4 a character of two bytes
before the place:
  $ cp "$examples/trap.kbd" trap.kbd
  $ cat > 'a, b%.kbd' <<END
  >   029   lctrl  lctrl  lctrl  lctrl  lctrl  lctrl  lctrl  lctrl   O
  >   042   lshift lshift lshift lshift lshift lshift lshift lshift  O
  >   002   1      '!'    nop    nop    nop    nop    nop    nop     O
  >   003   'ä'    2      nop    nop    nop    nop    nop    nop     O
  >   dacu  0x00b4 ( 'a' 0x00e1 ) ( 'a' 0x00e4 )
  > END
  $ cat > bad.kbd <<END
  >   042   lshift lshift lshift
  >         lshfit lshift lshift lshift lshift  O
  >   030   ä
  > END

Text is what is printed where no format is asked for:
  $ kmap lint trap.kbd 'a, b%.kbd' bad.kbd > plain
  ! 3 errors, 3 warnings in 3 of 3 texts
  [1]
  $ kmap lint --format text trap.kbd 'a, b%.kbd' bad.kbd | cmp - plain
  ! 3 errors, 3 warnings in 3 of 3 texts
  $ grep -c '^[ab]' plain
  6
  $ sed -n '/^a, b%.kbd:4/,/\^/p' plain
  a, b%.kbd:4:17: warning: 2 is the character number 2, which is stx; the digit is '2' [bare-digit]
      003   'ä'    2      nop    nop    nop    nop    nop    nop     O
                   ^

GitHub:
  $ kmap lint --format github trap.kbd 'a, b%.kbd' bad.kbd
  ::error file=trap.kbd,line=6,col=9,title=mixed-key::key 42 is lshift here and the character 'x' in column 2 (ctrl); put lshift or nop for its characters%0Anote: lshift stays on with no key pressed, after: down 42, down 29, down 42, up 29, up 42
  ::warning file=a%2C b%25.kbd,line=3,col=9,title=bare-digit::1 is the character number 1, which is soh; the digit is '1'
  ::warning file=a%2C b%25.kbd,line=4,col=17,title=bare-digit::2 is the character number 2, which is stx; the digit is '2'
  ::warning file=a%2C b%25.kbd,line=5,col=31,title=pair-again::this pair has no effect: dacu has one with the base 'a' before it, in line 5
  ::error file=bad.kbd,line=2,col=9,title=BadWord::lshfit means nothing; did you mean lshift%0Anote: line 1: slot 42 is defined from here on
  ::error file=bad.kbd,line=3,col=9,title=BadByte::ä begins no word; a character that is meant is quoted: 'ä'
  ! 3 errors, 3 warnings in 3 of 3 texts
  [1]

JSON:
  $ kmap lint --format json trap.kbd 'a, b%.kbd' bad.kbd
  [
  {"column":9,"file":"trap.kbd","kind":"mixed-key","line":6,"message":"key 42 is lshift here and the character 'x' in column 2 (ctrl); put lshift or nop for its characters","notes":[{"column":1,"line":1,"message":"lshift stays on with no key pressed, after: down 42, down 29, down 42, up 29, up 42"}],"severity":"error"},
  {"column":9,"file":"a, b%.kbd","kind":"bare-digit","line":3,"message":"1 is the character number 1, which is soh; the digit is '1'","notes":[],"severity":"warning"},
  {"column":17,"file":"a, b%.kbd","kind":"bare-digit","line":4,"message":"2 is the character number 2, which is stx; the digit is '2'","notes":[],"severity":"warning"},
  {"column":31,"file":"a, b%.kbd","kind":"pair-again","line":5,"message":"this pair has no effect: dacu has one with the base 'a' before it, in line 5","notes":[],"severity":"warning"},
  {"column":9,"file":"bad.kbd","kind":"BadWord","line":2,"message":"lshfit means nothing; did you mean lshift","notes":[{"column":3,"line":1,"message":"slot 42 is defined from here on"}],"severity":"error"},
  {"column":9,"file":"bad.kbd","kind":"BadByte","line":3,"message":"ä begins no word; a character that is meant is quoted: 'ä'","notes":[],"severity":"error"}
  ]
  ! 3 errors, 3 warnings in 3 of 3 texts
  [1]

SARIF, whose columns are characters, but for its last line:
  $ kmap lint --format sarif trap.kbd 'a, b%.kbd' bad.kbd > log
  ! 3 errors, 3 warnings in 3 of 3 texts
  [1]
  $ sed '$d' log
  {"$schema":"https://json.schemastore.org/sarif-2.1.0.json","runs":[{"columnKind":"unicodeCodePoints","results":[
  {"level":"error","locations":[{"physicalLocation":{"artifactLocation":{"uri":"trap.kbd"},"region":{"startColumn":9,"startLine":6}}}],"message":{"text":"key 42 is lshift here and the character 'x' in column 2 (ctrl); put lshift or nop for its characters"},"relatedLocations":[{"message":{"text":"lshift stays on with no key pressed, after: down 42, down 29, down 42, up 29, up 42"},"physicalLocation":{"artifactLocation":{"uri":"trap.kbd"},"region":{"startColumn":1,"startLine":1}}}],"ruleId":"mixed-key"},
  {"level":"warning","locations":[{"physicalLocation":{"artifactLocation":{"uri":"a%2C%20b%25.kbd"},"region":{"startColumn":9,"startLine":3}}}],"message":{"text":"1 is the character number 1, which is soh; the digit is '1'"},"ruleId":"bare-digit"},
  {"level":"warning","locations":[{"physicalLocation":{"artifactLocation":{"uri":"a%2C%20b%25.kbd"},"region":{"startColumn":16,"startLine":4}}}],"message":{"text":"2 is the character number 2, which is stx; the digit is '2'"},"ruleId":"bare-digit"},
  {"level":"warning","locations":[{"physicalLocation":{"artifactLocation":{"uri":"a%2C%20b%25.kbd"},"region":{"startColumn":31,"startLine":5}}}],"message":{"text":"this pair has no effect: dacu has one with the base 'a' before it, in line 5"},"ruleId":"pair-again"},
  {"level":"error","locations":[{"physicalLocation":{"artifactLocation":{"uri":"bad.kbd"},"region":{"startColumn":9,"startLine":2}}}],"message":{"text":"lshfit means nothing; did you mean lshift"},"relatedLocations":[{"message":{"text":"slot 42 is defined from here on"},"physicalLocation":{"artifactLocation":{"uri":"bad.kbd"},"region":{"startColumn":3,"startLine":1}}}],"ruleId":"BadWord"},
  {"level":"error","locations":[{"physicalLocation":{"artifactLocation":{"uri":"bad.kbd"},"region":{"startColumn":9,"startLine":3}}}],"message":{"text":"ä begins no word; a character that is meant is quoted: 'ä'"},"ruleId":"BadByte"}

The last line, which has all kinds and the version:
  $ kmap --version | sed 's/kmap //' > version
  $ tail -n 1 log | sed "s/$(cat version)/VERSION/"
  ],"tool":{"driver":{"name":"kmap","rules":[{"id":"BadByte"},{"id":"BadLiteral"},{"id":"BadWord"},{"id":"Unexpected"},{"id":"KeyTooLarge"},{"id":"BadChar"},{"id":"BadFunction"},{"id":"TooManyPairs"},{"id":"ZeroBase"},{"id":"Combined"},{"id":"EndInside"},{"id":"no-key"},{"id":"cannot-type"},{"id":"no-shift"},{"id":"mixed-key"},{"id":"half-defined"},{"id":"defined-again"},{"id":"gap"},{"id":"exchanged"},{"id":"twice"},{"id":"no-control"},{"id":"no-caps"},{"id":"octal-like"},{"id":"dead-key"},{"id":"zero-accent"},{"id":"pair-again"},{"id":"unused-half"},{"id":"bare-digit"},{"id":"unused-ignore"},{"id":"bad-ignore"}],"version":"VERSION"}}}],"version":"2.1.0"}

Where nothing is told:
  $ kmap lint --format github "$examples/us.kbd"
  $ kmap lint --format json "$examples/us.kbd"
  [
  ]
  $ kmap lint --format sarif "$examples/us.kbd" | wc -l
  2

Each maximal piece that isn't UTF-8 is one character of SARIF's columns, and columns count bytes elsewhere:
  $ printf "30 '\377\377' \\n" > pieces
  $ kmap lint --quiet --format sarif pieces | grep -o '"startColumn":[0-9]*'
  "startColumn":4
  $ printf "30 '\377' '\342\202' nop 1\\n" > pieces
  $ kmap lint --quiet --format json pieces | grep -o '"column":[0-9]*'
  "column":8
  $ kmap lint --quiet --format sarif pieces | grep -o '"startColumn":[0-9]*'
  "startColumn":8

What is told of the whole text, and a text that can't be read, behind which the others follow:
  $ : > empty
  $ kmap lint --format github empty missing bad.kbd
  ::error file=empty,line=1,col=1,title=no-key::the text defines no key
  ::error file=bad.kbd,line=2,col=9,title=BadWord::lshfit means nothing; did you mean lshift%0Anote: line 1: slot 42 is defined from here on
  ::error file=bad.kbd,line=3,col=9,title=BadByte::ä begins no word; a character that is meant is quoted: 'ä'
  ! kmap: cannot open missing: No such file or directory
  ! 3 errors in 2 of 3 texts
  [2]
  $ kmap lint --format json missing
  [
  ]
  ! kmap: cannot open missing: No such file or directory
  [2]
  $ kmap lint --format json empty
  [
  {"column":1,"file":"empty","kind":"no-key","line":1,"message":"the text defines no key","notes":[],"severity":"error"}
  ]
  ! 1 error
  [1]

The count: parts without any are left out, and so is how many texts there are of one.
  $ kmap lint --format github 'a, b%.kbd' "$examples/us.kbd" > found
  ! 3 warnings in 1 of 2 texts
  $ sed '3s/1/0x01/; 5s/( .a. 0x00e4 )//' 'a, b%.kbd' | kmap lint - > found
  ! 1 warning
  $ kmap lint --strict --format github 'a, b%.kbd' > found
  ! 3 warnings
  [1]
  $ kmap lint --quiet --format github empty
  ::error file=empty,line=1,col=1,title=no-key::the text defines no key
  [1]

Colours, with ~ for the sign that begins each. Without them the bytes are those of the plain lines.
  $ kmap lint --quiet --color always bad.kbd | tr '\033' '~'
  ~[1mbad.kbd:2:9:~[0m ~[1;31merror:~[0m lshfit means nothing; did you mean lshift [BadWord]
            lshfit lshift lshift lshift lshift  O
            ~[1;32m^~[0m
  ~[1mbad.kbd:1:3:~[0m ~[1;36mnote:~[0m slot 42 is defined from here on
      042   lshift lshift lshift
      ~[1;32m^~[0m
  ~[1mbad.kbd:3:9:~[0m ~[1;31merror:~[0m ä begins no word; a character that is meant is quoted: 'ä' [BadByte]
      030   ä
            ~[1;32m^~[0m
  $ cp 'a, b%.kbd' 'x: ^.kbd'
  $ kmap lint --quiet --color always 'x: ^.kbd' | tr '\033' '~' | sed -n '1p;3p'
  ~[1mx: ^.kbd:3:9:~[0m ~[1;35mwarning:~[0m 1 is the character number 1, which is soh; the digit is '1' [bare-digit]
            ~[1;32m^~[0m
  $ kmap lint --quiet --color always empty | tr '\033' '~'
  ~[1mempty:1:1:~[0m ~[1;31merror:~[0m the text defines no key [no-key]
  $ escape=$(printf '\033')
  $ kmap lint --quiet --color always trap.kbd 'a, b%.kbd' bad.kbd | sed "s/$escape\[[0-9;]*m//g" | cmp - plain
  $ kmap lint --quiet --color auto trap.kbd 'a, b%.kbd' bad.kbd | cmp - plain
  $ kmap lint --quiet --color never trap.kbd 'a, b%.kbd' bad.kbd | cmp - plain
  $ kmap lint --quiet --color always --format github empty
  ::error file=empty,line=1,col=1,title=no-key::the text defines no key
  [1]

What isn't a format, or a word for when to print in colours:
  $ kmap lint --format xml bad.kbd
  ! error: invalid value 'xml' for '--format <FORMAT>'
  !   [possible values: text, github, json, sarif]
  ! 
  ! For more information, try '--help'.
  [2]
  $ kmap lint --color red bad.kbd 2>&1 | head -n 2
  error: invalid value 'red' for '--color <WHEN>'
    [possible values: auto, always, never]
