"""What config_check has to report about single entries, written by hand from its rules.

In the tables a value is None if the entry is a key alone.
"""
import plain_reader

SETTINGS = b"""\
# a key for each kind
test.bool bool
test.int\tint
test.size \t int 0 0x7fffffffffffffff
test.bool-or-int bool-or-int
test.color color
test.text text
test.path path
test.word word one Two three-3
test.alone word alone
test.word-any-case word-any-case one Two kilo
test.bool-or-word bool-or-word always never auto
test.bool-or-word-any-case bool-or-word-any-case always Never kilo
test.int-or-word int-or-word auto 0x80000000
test.words words one Two -three tab=* l*
test.words-any-case words-any-case one tab=*
test.date date-any-case now ja* \\\\  # two backslashes are the word of one
test.sort-key sort-key name date
test.fetch fetch-refspec
test.push warn push-refspec
test.branch branch
test.command command
test.no-option no-option
test.colors colors-by-age
test.hash word a#b \\# \\#c # no-word \\d

# marks
mark.alone alone text
mark.needs needs-value bool
mark.warn warn int -1 0x10k
mark.path alone warn path
mark.both alone warn word one
mark.needs-warn needs-value warn bool-or-word one
mark.since since=2.56 bool
mark.until until=2.55 bool
mark.reached since=2.55 until=2.55.1 warn int 1 9
mark.reached since=2.3 until=3.0 int
mark.instead instead=mark.since bool
mark.old instead=false old=on bool
mark.old-word instead=Two old=one word one Two
mark.old-alone old=one text
want.bool is=true bool
want.off is=off bool
want.int is=1k int
want.bool-or-int is=1 bool-or-int
want.color is=#fff color
want.text is=true alone text
want.path is=~no-such-user/x path
want.word is=Two word-any-case one Two
want.bool-or-word is=off bool-or-word off auto
want.int-or-word is=0x10 warn int-or-word auto
want.words is=a,b words a b

# words that are boolean texts too
both.bytes bool-or-word yes 1 auto
both.any-case bool-or-word-any-case Yes 0X10 auto

# keys
Mixed.CASE int
middle.*.last int
middle.Exact.Other int
middle.two.parts.other int
empty..middle int
any-last.* int
any-last.sub.* int
any-both.*.* int
literal.a*.last int
literal.last* int
*.star int
t\xc3\xa9st.\xc3\x9f int
color.paint.first int
color.paint.Second-one int
color.paint.second-one text
color.*.any int

# the first row wins
first.twice int
first.twice bool
first.* text
first.later int
first.sub.x bool
first.*.x int
first.*.* color
"""

BOOLEAN_FAULT = b"error: " + plain_reader.BOOLEAN_FAULT
INTEGER_FAULT = b"error: " + plain_reader.INTEGER_FAULT
OVERFLOW_FAULT = b"error: " + plain_reader.OVERFLOW_FAULT
COLOR_FAULT = b"error: " + plain_reader.COLOR_FAULT
NO_HOME = b"error: no such user or no home directory"
BAD_LINE = b"error: Git cannot read this line, and reads nothing of the file\n"
NUL = b"error: a NUL byte outside a comment\n"
NO_VALUE = b"error: no value"
NO_INT = b"error: out of range: not from -2147483648 to 2147483647"
NO_SIZE = b"error: out of range: not from 0 to 9223372036854775807"
NO_INT_OR_WORD = b"error: not an integer, nor one of: auto, 0x80000000"
NOT_WORDS = b"error: not a list of: one, Two, -three, tab=*, l*"
NO_DATE = b"error: not a date: it has no digit, nor one of: now, ja*, \\\\"
NO_SORT_KEY = b"error: not a key to sort by: name, date"
NO_WORD = b"error: not one of: one, Two, three-3"
NO_WORD_ANY_CASE = b"error: not one of: one, Two, kilo"
NO_BOOL_OR_WORD = b"error: not a boolean, nor one of: always, never, auto"
NO_BOOL_OR_WORD_ANY_CASE = b"error: not a boolean, nor one of: always, Never, kilo"

KELVIN = "\u212a".encode()  # its lower case is k
LONG_S = "\u017f".encode()  # its upper case is S
ARABIC_ONE = "\u0661".encode()
NINES = b"9" * 5000
ZEROS = b"0" * 5000

WORDS = [b"yes", b"on", b"true", b"no", b"off", b"false", b"YES", b"oN", b"TrUe", b"NO", b"Off", b"FALSE",
         b""]
SMALL_NUMBERS = [b"0", b"1", b"-1", b"+1", b"+0", b"-0", b"00", b"010", b"-017", b"0x0", b"0X1f", b"0xFFk",
                 b"0b0", b"0B101", b"+0b1m", b"1k", b"1K", b"-1m", b"1M", b"1g", b"1G", b"-2g", b"+0x0m",
                 b"-0k", ZEROS, b"2147483647", b"-2147483648", b"0x7fffffff", b"-0x80000000", b"2097151k",
                 b"-2097152k"]
MIDDLE_NUMBERS = [b"2147483648", b"-2147483649", b"0x80000000", b"2g", b"3G", b"2097152k", b"-2097153k",
                  b"9223372036854775807", b"-9223372036854775808", b"0x7fffffffffffffff",
                  b"-0x8000000000000000", b"0777777777777777777777", b"8589934591g", b"-8589934592g",
                  b"9007199254740991k", b"-9007199254740992k", b"-8796093022208m"]
LARGE_PRODUCTS = [b"8589934592g", b"-8589934593g", b"9007199254740992k", b"-9007199254740993k",
                  b"8796093022208m", b"9223372036854775807k", b"-9223372036854775808g",
                  b"0x7fffffffffffffffG"]
NO_NUMBERS = [b" 1", b"1 ", b"1 k", b"1kk", b"1kb", b"k", b"G", b"+", b"-", b"--1", b"+-1", b"-+1", b"08",
              b"0o7", b"0x", b"0xg", b"0b", b"0b2", b"0x-1", b"0x1_0", b"1_0", b"1.5", b"1e3", b"1t", b"one",
              b"0k0", NINES, b"1" + KELVIN, ARABIC_ONE, b"9223372036854775808", b"-9223372036854775809",
              b"9223372036854775808k", b"0x8000000000000000", b"01000000000000000000000",
              b"18446744073709551616", b"18446744073709551617"]
NO_BOOLEANS = [b"maybe", b"y", b"n", b"t", b"tru", b"truee", b" yes", b"yes ", b" ", b"ye" + LONG_S,
               b"fal" + LONG_S + b"e", b"null", b"none", b"enable"]
NAMES = [b"black", b"red", b"green", b"yellow", b"blue", b"magenta", b"cyan", b"white", b"brightblack",
         b"brightred", b"brightgreen", b"brightyellow", b"brightblue", b"brightmagenta", b"brightcyan",
         b"brightwhite", b"normal", b"default", b"RED", b"BrightCyan", b"NORMAL", b"Default", b"-1", b"0",
         b"00", b"7", b"+7", b"+007", b"255", b"00000255", ZEROS, b"#0a1B2c", b"#FFFFFF", b"#f1B"]
ATTRIBUTES = [b"bold", b"dim", b"italic", b"ul", b"blink", b"reverse", b"strike", b"reset", b"Reset",
              b"nobold", b"nodim", b"noitalic", b"noul", b"noblink", b"noreverse", b"nostrike", b"no-bold",
              b"no-dim", b"no-italic", b"no-ul", b"no-blink", b"no-reverse", b"no-strike"]
COLORS = [b"", b" ", b"   ", b"red blue", b"red bold blue", b"bold ul red", b"red red", b"normal -1",
          b"default -1 bold", b"bold bold no-bold nobold", b"reset red", b" red ", b"0 255 bold",
          b"#fff #000000", b"red\xe3\x80\x80blue", b"red\xe2\x80\x8abold", b"\xe1\x9a\x80red"]
NO_COLORS = [b"re", b"redd", b"bright", b"bright red", b"brightnormal", b"brightdefault", b"brightbrightred",
             b"lightred", b"256", b"+256", b"1000", b"00256", NINES, b"-2", b"-0", b"-01", b"+-1", b"+",
             b"0x7", b"1k", b"#", b"#ff", b"#ffff", b"#fffff", b"#fffffff", b"#ggg", b"#gggggg", b"fff",
             b"Bold", b"BOLD", b"No-ul", b"noreset", b"no-reset", b"no", b"no-", b"no-no-bold", b"nonobold",
             b"red,blue", b"red blue green", b"-1 -1 -1", b"1 2 3", b"normal default red",
             b"red bold blue ul green", b"red maybe", b"blac" + KELVIN, b"red\xe2\x80\x8bblue",
             b"red\xef\xbb\xbf", b"red\xe1\xa0\x8eblue"]
TEXTS = [b"", b":(optional)", b"\xff", b"/x", b"x", b"x/y", b" ", b"~", b"~/", b"~/x", b"~no-such-user/x", b"%(prefix)/", b"%(prefix)/x",
         b"\xc3\xa9", b":(optional)x", b":(optional) ", b":(optional):(optional)", b":(Optional)",
         b":(optional", b"x:(optional)"]

PATHS = [b"", b":(optional)", b"/x", b"x", b" ", b"~", b"~/", b"~/x", b"~//x", b"~root", b"~root/x", b"%(prefix)/x", b"%(prefix)",
         b":(optional)~/x", b":(optional)~root/x", b":(optional):(optional)~no-such-user/x", b":(Optional)~no-such-user/x",
         b" ~no-such-user/x", b"x~no-such-user/x", b"/~no-such-user/x", b"\xff"]
NO_PATHS = [b"~no-such-user", b"~no-such-user/", b"~no-such-user/x", b":(optional)~no-such-user/x", b"~ROOT/x", b"~~/x", b"~ /x",
            b"~root:/x", b"~root /x", b"~\xc3\xa9/x"]

# refspecs that Git 2.55.0 takes or refuses in remote.NAME.fetch, at `git status`, and in remote.NAME.push, at `git push`
BOTH = [b"+refs/heads/*:refs/remotes/o/*", b"@", b"@:refs/x", b"^refs/x", b"^*", b"^@", b":", b"+:", b":x", b"a", b"a*b:c*d", b"a*:*", b"-a",
        b"\xc3\xbc", b"+a:b", b"1234567890123456789012345678901234567890:x", b"a-b/c.d"]
FETCHED = [b"", b"+", b"HEAD:"]
PUSHED = [b"main^:x", b"a b:c", b"refs/*", b"a:b:c", b"~a:b"]
NO_FETCHED = [b"refs/*", b"a:b:c", b"a b:c", b"main^:x", b"~a:b"]
NO_PUSHED = [b"", b"+", b"HEAD:"]
NEITHER = [b"+refs/heads/*:refs/remotes/o", b"refs/heads/**:refs/remotes/o/**", b"a : b", b"a b", b"refs/heads/x.lock", b"^refs/x:refs/y",
           b"^", b"a..b", b".a", b"a/.b", b"a.", b"a@{b", b"a//b", b"/a", b"a/", b"a?b", b"+^a", b"~a", b"a\\b", b"a:b c", b"a:@", b"x\x7f",
           b"a.lock/b", b"*:x", b"a[b"]
# what it takes and refuses in init.defaultBranch, at `git init`, and in an alias: status 128, or 1 if it is empty
BRANCHES = [b"main", b"@", b"-x", b"HEAD", b"x/y", b"\xc3\xbc", b"refs/heads/x"]
NO_BRANCHES = [b"my branch", b"feature/", b"", b"a.lock", b"a..b", b"a*"]
COMMANDS = [b"!sh -c \"x", b"!", b"log --format='%h'", b"log \\\"", b"log 'a\\'", b"-c x=y log", b"log \"a 'b\""]
NO_COMMANDS = [b"log \"a", b"log 'a", b"log a\\", b"", b"   ", b"log \"a\\\""]

# key, and the values that are right
ACCEPTED = [
    (b"test.bool", [None, *WORDS, *SMALL_NUMBERS]),
    (b"test.int", SMALL_NUMBERS),
    (b"test.size", [b"0", b"1", b"-0", b"+0", b"-0k", b"010", b"0x10k", b"0b1g", b"512m", b"2147483648",
                    b"8589934591g", b"9223372036854775807", b"+9223372036854775807", b"0x7fffffffffffffff",
                    ZEROS]),
    (b"test.bool-or-int", [None, *WORDS, *SMALL_NUMBERS]),
    (b"test.color", [*NAMES, *ATTRIBUTES, *COLORS]),
    (b"test.text", TEXTS),
    (b"test.path", PATHS),
    (b"mark.path", [None, b"~/x"]),
    (b"test.word", [b"one", b"Two", b"three-3"]),
    (b"test.alone", [b"alone"]),
    (b"test.word-any-case", [b"one", b"ONE", b"oNe", b"two", b"Two", b"TWO", b"kilo", b"KILO"]),
    (b"test.bool-or-word", [None, b"always", b"never", b"auto", *WORDS, *SMALL_NUMBERS]),
    (b"test.bool-or-word-any-case", [None, b"always", b"ALWAYS", b"never", b"Never", b"KiLo", *WORDS,
                                     *SMALL_NUMBERS]),
    (b"both.bytes", [None, b"yes", b"YES", b"1", b"01", b"auto"]),
    (b"both.any-case", [None, b"yes", b"YES", b"0x10", b"16", b"AUTO"]),
    (b"test.int-or-word", [b"auto", b"0x80000000", *SMALL_NUMBERS]),
    (b"test.words", [b"", b" ", b",,", b"one", b"one,Two", b"Two one", b"-three\tone\nTwo\rone,", b"tab=", b"tab=8,one",
                     b"l", b"lll"]),
    (b"test.words-any-case", [b"", b"ONE,Tab=Ab", b"tAB="]),
    (b"test.hash", [b"a#b", b"#", b"#c"]),
    (b"test.date", [b"now", b"NOW", b"x.now.y", b"7", b"x7y", b"January", b"in ja", b"\\", b"no-NOW"]),
    (b"test.sort-key", [b"name", b"-name", b"version:name", b"-v:*name", b"*date", b"name:short", b"date:", b"version:v:date"]),
    (b"test.fetch", [*FETCHED, *BOTH]), (b"test.push", [*PUSHED, *BOTH]), (b"test.branch", BRANCHES), (b"test.command", COMMANDS),
    (b"test.no-option", [b"", b"x-", b" -x", b"./-x"]),
    (b"test.colors", [b"", b"blue", b"blue,12 month ago,white bold,soon,#fff", b"red,,blue"]),
    (b"mark.alone", [None, b"", b"x"]),
    (b"want.bool", [None, b"true", b"yes", b"1", b"On", b"2k"]), (b"want.off", [b"no", b"", b"0"]),
    (b"want.int", [b"1k", b"1024", b"0x400", b"+1K"]), (b"want.bool-or-int", [b"1", b"01"]),
    (b"want.color", [b"#fff", b" #FFF ", b"#ffffff"]), (b"want.text", [None, b"true"]), (b"want.word", [b"Two", b"tWO"]),
    (b"want.bool-or-word", [b"off"]), (b"want.int-or-word", [b"16", b"020"]), (b"want.words", [b"a,b"]),
    (b"mark.needs", [b"", b"yes"]),
    (b"mark.warn", [b"-1", b"0", b"16k"]),
    (b"mark.both", [None, b"one"]),
    (b"mark.old", [b"no", b"", b"0"]), (b"mark.old-word", [b"Two"]), (b"mark.old-alone", [b"one"]),
    (b"mark.needs-warn", [b"one", b"yes", b""]),
    (b"mark.reached", [b"10", b"0"]),
]

# key, the reason, and the values that have it
REPORTED = [
    (b"test.bool", BOOLEAN_FAULT, [*NO_BOOLEANS, *NO_NUMBERS, *LARGE_PRODUCTS]),
    (b"test.bool", NO_INT, MIDDLE_NUMBERS),
    (b"test.int", NO_VALUE, [None]),
    (b"test.int", INTEGER_FAULT, [*WORDS, *NO_BOOLEANS, *NO_NUMBERS]),
    (b"test.int", OVERFLOW_FAULT, LARGE_PRODUCTS),
    (b"test.int", NO_INT, MIDDLE_NUMBERS),
    (b"test.size", NO_VALUE, [None]),
    (b"test.size", INTEGER_FAULT, [*WORDS, *NO_BOOLEANS, *NO_NUMBERS]),
    (b"test.size", OVERFLOW_FAULT, LARGE_PRODUCTS),
    (b"test.size", NO_SIZE, [b"-1", b"-1k", b"-0b1", b"-9223372036854775808", b"-9007199254740992k",
                             b"-8589934592g"]),
    (b"test.bool-or-int", BOOLEAN_FAULT, [*NO_BOOLEANS, *NO_NUMBERS, *LARGE_PRODUCTS]),
    (b"test.bool-or-int", NO_INT, MIDDLE_NUMBERS),
    (b"test.color", NO_VALUE, [None]),
    (b"test.color", COLOR_FAULT, NO_COLORS),
    (b"test.text", NO_VALUE, [None]),
    (b"test.path", NO_VALUE, [None]),
    (b"test.path", NO_HOME, NO_PATHS),
    (b"mark.path", b"warning: " + plain_reader.NO_HOME, [b"~no-such-user/x"]),
    (b"want.path", NO_HOME, [b"~no-such-user/x"]), (b"want.path", b"error: has to be ~no-such-user/x", [b"x", b"~/x", b""]),
    (b"test.word", NO_VALUE, [None]),
    (b"test.word", NO_WORD, [b"", b"one Two", b"one, Two", b"yes", b"1", b"ow", b"oen ", b"thr---3-"]),
    (b"test.alone", b"error: not one of: alone", [b"", b"al"]),
    (b"test.fetch", b"error: not a refspec", [*NO_FETCHED, *NEITHER]), (b"test.push", b"warning: not a refspec", [*NO_PUSHED, *NEITHER]),
    (b"test.branch", b"error: not the name of a branch", NO_BRANCHES), (b"test.fetch", NO_VALUE, [None]),
    (b"test.command", b"error: not a command: it is empty, or a quote or a backslash is open at its end", NO_COMMANDS),
    (b"test.no-option", b"error: begins with -, as an option", [b"-", b"-x", b"--upload-pack=x"]),
    (b"test.colors", b"error: not colors with dates between them", [b"blue,soon", b"bright"]),
    (b"test.colors", b"error: not colors with dates between them; 'soon' is none", [b"soon,blue"]),
    (b"test.colors", b"error: not colors with dates between them; 'wite' is none; did you mean blue,soon,white?", [b"blue,soon,wite"]),
    (b"test.word-any-case", NO_VALUE, [None]),
    (b"test.word-any-case", NO_WORD_ANY_CASE, [b"", b"yes", b"1", KELVIN + b"ilo"]),
    (b"test.bool-or-word", NO_BOOL_OR_WORD, [*NO_BOOLEANS, *NO_NUMBERS, *MIDDLE_NUMBERS, *LARGE_PRODUCTS]),
    (b"test.bool-or-word-any-case", NO_BOOL_OR_WORD_ANY_CASE,
     [KELVIN + b"ilo", *NO_BOOLEANS, *NO_NUMBERS, *LARGE_PRODUCTS]),
    (b"both.bytes", b"error: not a boolean, nor one of: yes, 1, auto", [b"maybe", b"2x", b"x"]),
    (b"both.any-case", b"error: not a boolean, nor one of: Yes, 0X10, auto", [b"maybe"]),
    (b"test.int-or-word", NO_VALUE, [None]),
    (b"test.int-or-word", NO_INT_OR_WORD, [b"", b"yes", b"2147483648", *NO_NUMBERS]),
    (b"test.words", NO_VALUE, [None]),
    (b"test.words", NOT_WORDS, [b"one;Two", b"tab", b"tab+*", b"xyb=1", b"L", b"xl"]),
    (b"test.words", NOT_WORDS + b"; 'xxxx' is none", [b"one,xxxx", b"xxxx one", b"\tTwo,xxxx,yyyy"]),
    (b"test.words-any-case", b"error: not a list of: one, tab=*", [b"one-tab="]),
    (b"test.date", NO_VALUE, [None]),
    (b"test.hash", b"error: not one of: a#b, #, #c", [b"", b"\\\\#", b"no-word", b"\\\\d"]),
    (b"test.date", NO_DATE, [b"", b"j", b"nowadays", b"xja", b" ", b"\xc3\xa9"]),
    (b"test.sort-key", NO_VALUE, [None]),
    (b"test.sort-key", NO_SORT_KEY, [b"", b"-", b"-:name", b"v:version:name", b"name,date", b"versionname"]),
    (b"mark.needs", NO_VALUE, [None]),
    (b"want.bool", b"error: has to be true", [b"no", b"0", b""]), (b"want.bool", BOOLEAN_FAULT, [b"x"]),
    (b"want.off", b"error: has to be off", [None, b"yes", b"1"]), (b"want.int", b"error: has to be 1k", [b"1", b"1m"]),
    (b"want.int", NO_VALUE, [None]), (b"want.bool-or-int", b"error: has to be 1", [None, b"true", b"yes", b"2", b"0", b"no"]),
    (b"want.color", b"error: has to be #fff", [b"red", b"#fffffe", b""]), (b"want.text", b"error: has to be true", [b"", b"True", b"yes"]),
    (b"want.word", b"error: has to be Two", [b"one"]), (b"want.bool-or-word", b"error: has to be off", [None, b"auto", b"no", b"false", b"0"]),
    (b"want.int-or-word", b"warning: has to be 0x10", [b"auto", b"1"]), (b"want.words", b"error: has to be a,b", [b"b,a", b"a", b"a b"]),
    (b"mark.needs", BOOLEAN_FAULT, [b"x"]),
    (b"mark.warn", NO_VALUE, [None]),
    (b"mark.warn", b"warning: out of range: not from -1 to 16384", [b"-2", b"17k"]),
    (b"mark.warn", b"warning: " + plain_reader.INTEGER_FAULT, [b"", b"x"]),
    (b"mark.both", b"warning: not one of: one", [b""]),
    (b"mark.since", b"note: Git reads it only since 2.56", [None, b"", b"x"]),
    (b"mark.until", b"warning: Git reads it only before 2.55", [None, b"", b"x"]),
    (b"mark.instead", b"warning: deprecated: use mark.since", [None, b"yes", b"true"]),
    (b"mark.instead", BOOLEAN_FAULT, [b"x"]),
    (b"mark.old", b"warning: deprecated: use false", [None, b"yes", b"1", b"true"]), (b"mark.old", BOOLEAN_FAULT, [b"x"]),
    (b"mark.old-word", b"warning: deprecated: use Two", [b"one"]), (b"mark.old-word", NO_VALUE, [None]),
    (b"mark.needs-warn", NO_VALUE, [None]),
    (b"mark.needs-warn", b"warning: not a boolean, nor one of: one", [b"x"]),
]

# key, the reason, and the values that are near a word, each with that word: two edits, or one if either text is short
MEANT = [
    (b"test.word", NO_WORD, {b"ONE": b"one", b"two": b"Two", b"on": b"one", b"onee": b"one", b"one ": b"one", b" one": b"one",
                             b"noe": b"one", b"tow": b"Two", b"wo": b"Two", b"three": b"three-3", b"threee3": b"three-3",
                             b"Trhee-3": b"three-3", b"thre3": b"three-3"}),
    (b"test.alone", b"error: not one of: alone", {b"Alone": b"alone", b"aloen": b"alone", b"lone": b"alone"}),
    (b"test.word-any-case", NO_WORD_ANY_CASE, {b"tw": b"Two", b"twoo": b"Two", b"two ": b"Two", b"KLIO": b"kilo"}),
    (b"test.bool-or-word", NO_BOOL_OR_WORD, {b"Always": b"always", b"NEVER": b"never", b"alway": b"always", b"alwayss": b"always",
                                             b" auto": b"auto", b"aluays ": b"always"}),
    (b"test.bool-or-word-any-case", NO_BOOL_OR_WORD_ANY_CASE, {b"alway": b"always", b"never ": b"Never", b"ne\nve": b"Never"}),
    (b"both.bytes", b"error: not a boolean, nor one of: yes, 1, auto", {b"Auto": b"auto", b"yess": b"yes", b"ye": b"yes"}),
    (b"both.any-case", b"error: not a boolean, nor one of: Yes, 0X10, auto", {b"aut": b"auto", b"0x1t0": b"0X10"}),
    (b"test.int-or-word", NO_INT_OR_WORD, {b"Auto": b"auto", b"autoo": b"auto", b"0X80000000": b"0x80000000"}),
    (b"test.words", NOT_WORDS, {b"One": b"one", b"three": b"-three", b"--three": b"-three", b"TAB=1": b"tab=1", b"tap=": b"tab="}),
    (b"test.words", NOT_WORDS + b"; 'two' is none", {b"one,two": b"one,Two", b" two,one": b" Two,one", b"two two": b"Two two"}),
    (b"test.words-any-case", b"error: not a list of: one, tab=*", {b"on": b"one"}),
    (b"test.date", NO_DATE, {b"snow": b"now", b"no": b"now"}),
    (b"test.sort-key", NO_SORT_KEY, {b"nam": b"name", b"namee": b"name", b"Name": b"name", b" name": b"name", b"dtae": b"date",
                                     b"nate": b"name", b"--name": b"-name", b"*-name": b"*name", b"-naem": b"-name",
                                     b"-version:nam": b"-version:name", b"v:dat:x:y": b"v:date:x:y"}),
    (b"mark.both", b"warning: not one of: one", {b"One": b"one"}),
    (b"mark.needs-warn", b"warning: not a boolean, nor one of: one", {b"One": b"one"}),
]

# key, and accepted values with their canonical texts
SPELLINGS = [
    (b"test.bool", {b"yes": b"true", b"on": b"true", b"True": b"true", b"1": b"true",
                    b"-2g": b"true", b"no": b"false", b"OFF": b"false",
                    b"": b"false", b"0": b"false", b"0x0k": b"false"}),
    (b"test.int", {b"0x10K": b"16k", b"+1": b"1", b"-0": b"0", b"00": b"0", b"-0K": b"0k", b"010": b"8",
                   b"-0b11M": b"-3m", b"1G": b"1g", b"-0x80000000": b"-2147483648", ZEROS: b"0"}),
    (b"test.size", {b"0x10K": b"16k", b"+512m": b"512m", b"-0": b"0", b"8589934591G": b"8589934591g",
                    b"0x7fffffffffffffff": b"9223372036854775807"}),
    (b"test.bool-or-int", {b"yes": b"true", b"No": b"false", b"": b"false", b"0x10K": b"16k", b"+1": b"1",
                           b"00": b"0", b"-0g": b"0g"}),
    (b"test.color", {b" ": b"", b"  red  ": b"red", b"RED": b"red", b"BrightBlue": b"brightblue",
                     b"-1": b"normal", b"Default": b"default", b"+007": b"7", ZEROS: b"0",
                     b"#fB1": b"#ffbb11", b"#ABCDEF": b"#abcdef", b"bold red": b"red bold",
                     b"red  blue": b"red blue", b"red red bold bold": b"red red bold",
                     b"ul bold": b"bold ul", b"no-bold no-dim": b"nodim nobold",
                     b"-1 -1 ul": b"normal normal ul", b"blue\xe3\x80\x80red": b"blue red",
                     b"nostrike reset RESET strike": b"strike reset nostrike"}),
    (b"test.word-any-case", {b"ONE": b"one", b"two": b"Two", b"TWO": b"Two", b"Kilo": b"kilo"}),
    (b"test.bool-or-word", {b"yes": b"true", b"": b"false", b"0x10": b"true", b"00": b"false"}),
    (b"test.bool-or-word-any-case", {b"ALWAYS": b"always", b"never": b"Never", b"yes": b"true",
                                     b"0": b"false", b"FALSE": b"false"}),
    (b"both.bytes", {b"YES": b"true", b"on": b"true", b"01": b"true", b"0": b"false"}),
    (b"both.any-case", {b"yes": b"Yes", b"YES": b"Yes", b"0x10": b"0X10", b"16": b"true", b"AUTO": b"auto"}),
    (b"test.int-or-word", {b"+1": b"1", b"0x10K": b"16k"}),
    (b"test.words-any-case", {b"ONE": b"one", b"TAB=*": b"tab=*"}),
    (b"test.date", {b"NOW": b"now"}),
    (b"mark.warn", {b"0x10K": b"16k"}),
    (b"mark.needs-warn", {b"no": b"false"}),
]

# key, and the accepted values whose spelling is canonical, or that have no other
CANONICAL = [
    (b"test.bool", [None, b"true", b"false"]),
    (b"test.int", [b"0", b"1", b"-1", b"16k", b"0k", b"-3m", b"1g", b"2147483647", b"-2147483648", b"1024",
                   b"1024k"]),
    (b"test.size", [b"0", b"512m", b"9223372036854775807", b"8589934591g"]),
    (b"test.bool-or-int", [None, b"true", b"false", b"0", b"-1", b"16k"]),
    (b"test.color", [b"", b"red", b"red blue", b"red red", b"red bold", b"bold ul", b"nodim nobold",
                     b"normal", b"0", b"255", b"#ffbb11", b"strike reset nostrike",
                     b"default normal bold dim italic ul blink reverse strike reset "
                     b"nodim nobold noitalic noul noblink noreverse nostrike"]),
    (b"test.text", [b"x", b"//x", b"~/x", b":(optional)x", b"x/../y"]),
    (b"test.path", [b"x", b"//x", b"~/x", b":(optional)x", b"x/../y"]),
    (b"test.word", [b"one", b"Two"]),
    (b"test.word-any-case", [b"one", b"Two", b"kilo"]),
    (b"test.bool-or-word", [None, b"always", b"true", b"false"]),
    (b"test.bool-or-word-any-case", [None, b"always", b"Never", b"true", b"false"]),
    (b"both.bytes", [None, b"yes", b"1", b"auto", b"true", b"false"]),
    (b"both.any-case", [None, b"Yes", b"0X10", b"auto", b"true", b"false"]),
    (b"test.int-or-word", [b"auto", b"0x80000000", b"16k"]),
    (b"test.words", [b"", b",one", b"one,Two", b"tab=*", b"l*"]),
    (b"test.words-any-case", [b"ONE,one", b"TAB=8"]),
    (b"test.date", [b"x.NOW", b"01", b"JA"]),
    (b"test.sort-key", [b"-v:name"]),
]

# a value for `test.word` that is not one of its words, and how the value is shown
SHOWN = [
    (b"a\tb", rb"a\x09b"), (b"a\nb", rb"a\x0ab"), (b"\n", rb"\x0a"), (b"a\n\nb\n", rb"a\x0a\x0ab\x0a"),
    (b"a\rb", rb"a\x0db"), (b"\\", rb"\\"), (b"\\x41\\\\", rb"\\x41\\\\"), (b"\x01\x1f", rb"\x01\x1f"),
    (b"\x1b[31m", rb"\x1b[31m"), (b" ", b" "), (b"\x7f", rb"\x7f"), (b"\xc2\x80", rb"\xc2\x80"),
    (b"\xc2\x85", rb"\xc2\x85"), (b"\xc2\x9f", rb"\xc2\x9f"), (b"\xc2\xa0", b"\xc2\xa0"),
    (b"\xef\xbb\xbfone", b"\xef\xbb\xbfone"), (b"\xe2\x80\xa8", b"\xe2\x80\xa8"),
    (b"\xe2\x80\x8b", b"\xe2\x80\x8b"), (b"\xc3\xa9", b"\xc3\xa9"), (b"\xe2\x82\xac", b"\xe2\x82\xac"),
    (b"\xf0\x9f\x98\x80", b"\xf0\x9f\x98\x80"), (b"\xef\xbf\xbf", b"\xef\xbf\xbf"),
    (b"\xf4\x8f\xbf\xbf", b"\xf4\x8f\xbf\xbf"), (b"\xffa", rb"\xffa"), (b"a\xffb", rb"a\xffb"),
    (b"a\xff", rb"a\xff"), (b"\x80", rb"\x80"), (b"a\xbfb", rb"a\xbfb"), (b"\xc3", rb"\xc3"),
    (b"a\xc3b", rb"a\xc3b"), (b"\xe2\x82", rb"\xe2\x82"), (b"\xe2\x82b", rb"\xe2\x82b"),
    (b"\xf0\x9f\x98", rb"\xf0\x9f\x98"), (b"\xf0\x9fa", rb"\xf0\x9fa"),
    (b"\xe2\xe2\x82\xac", b"\\xe2\xe2\x82\xac"), (b"\xe2\x82\xac\x82", b"\xe2\x82\xac\\x82"),
    (b"\xe2\xc3\xa9", b"\\xe2\xc3\xa9"), (b"\xe2\x82\xc2\x85", rb"\xe2\x82\xc2\x85"),
    (b"\xc0\x80", rb"\xc0\x80"), (b"\xc1\xbf", rb"\xc1\xbf"), (b"\xe0\x9f\xbf", rb"\xe0\x9f\xbf"),
    (b"\xe0\xa0\x80", b"\xe0\xa0\x80"), (b"\xed\x9f\xbf", b"\xed\x9f\xbf"),
    (b"\xed\xa0\x80", rb"\xed\xa0\x80"), (b"\xed\xbf\xbf", rb"\xed\xbf\xbf"),
    (b"\xf0\x8f\xbf\xbf", rb"\xf0\x8f\xbf\xbf"), (b"\xf0\x90\x80\x80", b"\xf0\x90\x80\x80"),
    (b"\xf4\x90\x80\x80", rb"\xf4\x90\x80\x80"), (b"\xf5\x80\x80\x80", rb"\xf5\x80\x80\x80"),
    (b"\xf8\x88\x80\x80\x80", rb"\xf8\x88\x80\x80\x80"),
]

# other values that are not shown as they are: key, value, how it is shown, and the reason
SHOWN_OF_KINDS = [
    (b"test.path", b"~\xff/x", rb"~\xff/x", NO_HOME),
    (b"test.path", b"~\n/x", rb"~\x0a/x", NO_HOME),
    (b"test.bool", b"\t1", rb"\x091", BOOLEAN_FAULT),
    (b"test.bool", b"yes\n", rb"yes\x0a", BOOLEAN_FAULT),
    (b"test.int", b"\n1", rb"\x0a1", INTEGER_FAULT),
    (b"test.int", b"1\r", rb"1\x0d", INTEGER_FAULT),
    (b"test.color", b"red\x1cblue", rb"red\x1cblue", COLOR_FAULT),
    (b"test.color", b"red\xc2blue", rb"red\xc2blue", COLOR_FAULT),
    (b"test.color", b"red\xe2\x80", rb"red\xe2\x80", COLOR_FAULT),
    (b"test.color", b"red\xa0blue", rb"red\xa0blue", COLOR_FAULT),
]

# values that are accepted, and that would not be shown as they are
UNSHOWN_ACCEPTED = [
    (b"test.color", b"red\nblue"), (b"test.color", b"\n"), (b"test.color", b"\t\v\f\r \n"),
    (b"test.color", b"red\xc2\x85bold"), (b"test.color", b"red\tblue"), (b"test.text", b"\n"),
    (b"test.text", b"a\nb\tc\\"), (b"test.text", b"\x7f\xc2\x80"),
]

# keys that integer rows cover, and how they are shown, or None if they are shown as Git lists them
KNOWN_KEYS = [
    (b"mixed.case", None), (b"MIXED.case", None), (b"mIxEd.cAsE", None), (b"TEST.INT", None),
    (b"middle.x.last", None), (b"MIDDLE.x.LAST", None), (b"middle..last", None), (b"middle...last", None),
    (b"middle.a.b.c.last", None), (b"middle.*.last", None), (b"middle.last.last", None),
    (b"middle.\xff\t.last", rb"middle.\xff\x09.last"), (b"middle.a\\b.last", rb"middle.a\\b.last"),
    (b"middle.\xc3\xa9 \"q\".last", b"middle.\xc3\xa9 \"q\".last"), (b"middle.Exact.other", None),
    (b"Middle.Exact.OTHER", None), (b"middle.two.parts.other", None), (b"empty..middle", None),
    (b"any-last.x", None), (b"any-last.sub.x", None), (b"any-both.x.y", None), (b"any-both.a.b.c", None),
    (b"literal.a*.last", None), (b"color.paint.FIRST", None), (b"color.x.any", None),
]
# keys that no row covers, and the suggested key: one part differs by one edit, or by two if both texts have five bytes
# (eight in a section); a swap of neighbors is one edit, and a run of bytes in the last part of two is three; the key of
# the nearest row is suggested, or of the first of several
MISSPELLED_KEYS = [
    (b"test.in", b"test.int"), (b"test.intt", b"test.int"), (b"tes.int", b"test.int"), (b"testt.int", b"test.int"),
    (b"test.nit", b"test.int"), (b"tset.int", b"test.int"), (b"test.sort-ky", b"test.sort-key"),
    (b"test.bol-or-wrd", b"test.bool-or-word"), (b"test.Colour", b"test.color"),
    (b"middle.x.las", b"middle.x.last"),
    (b"middle.x.lats", b"middle.x.last"), (b"mddle.X y.last", b"middle.X y.last"),
    (b"middle.exact.other", b"middle.Exact.Other"), (b"middle.EXact.other", b"middle.Exact.Other"),
    (b"middle.Exact.othr", b"middle.Exact.Other"), (b"middle.exat.other", b"middle.Exact.Other"),
    (b"middle.two.Parts.other", b"middle.two.parts.other"), (b"empty.x.middle", b"empty..middle"),
    (b"any-last.sbu.x", b"any-last.sub.x"), (b"any-last.SUB.x", b"any-last.sub.x"), (b"any-lst.Sub", b"any-last.sub"),
    (b"any-both-.x.y", b"any-both.x.y"), (b"literal.last-o", b"literal.last*"), (b"x.star", b"*.star"),
    (b"middle.\xff\t.lst", rb"middle.\xff\x09.last"), (b"middle.a\\b.lst", rb"middle.a\\b.last"),
    (b"test.word-case", b"test.word-any-case"), (b"test.OR-WORD", b"test.bool-or-word"), (b"test.wordless", b"test.words"),
    (b"test.x.int", b"test.int"), (b"test..int", b"test.int"), (b"middle.LAST", b"middle.NAME.last"),
    (b"middle.other", b"middle.Exact.Other"), (b"empty.middle", b"empty..middle"),
    (b"test.int-or-words-first", b"test.int-or-word"), (b"any-lasted.x", b"any-last.x"), (b"ay-lastt.x", b"any-last.x"),
    (b"test.needs", b"mark.needs"), (b"mark.text", b"test.text"), (b"test.both", b"mark.both"),
]
# keys in sections in which only the rows have settings
OWN_KEYS = [b"test.wrong", b"test.tni", b"any-both.y", b"literal.last-one", b"test.key", b"test.nothing"]
# slots of colors that no row has, and what is said of those that rows have; Git 2.39.5 and 2.55.0 say nothing of these
OTHER_SLOTS = [(key, b"; color.paint has: first, Second-one") for key in (b"color.paint.third", b"COLOR.paint.f")]
OTHER_SLOTS_BUILT_IN = [
    (b"color.status.add", b"; color.status has: header, added, updated, changed, untracked, branch, nobranch, localBranch, remoteBranch, unmerged"),
    (b"color.diff.hunk", b"; color.diff has: context, plain, meta, frag, func, old, new, commit, whitespace, oldMoved and 13 more"),
    (b"color.branch.head", b"; color.branch has: current, local, remote, upstream, plain, worktree, reset"),
    (b"color.decorate.note", b"; color.decorate has: branch, remoteBranch, tag, stash, HEAD, grafted"),
    (b"color.interactive.question", b"; color.interactive has: prompt, header, help, error, plain, reset"),
    (b"color.push.warning", b"; color.push has: error, reset"), (b"color.transport.ok", b"; color.transport has: rejected, reset"),
    (b"color.remote.note", b"; color.remote has: hint, warning, success, error"), (b"color.advice.text", b"; color.advice has: hint, reset"),
    (b"color.blame.old", b"; color.blame has: repeatedLines, highlightRecent"),
]
# how `git COMMAND` ends in an empty repository if this key is `zzz`: it takes no slot but its own
SLOTS_OF_GIT = [
    (b"color.status.add", b"status", 0), (b"color.status.added", b"status", 128),
    (b"color.branch.head", b"branch", 0), (b"color.branch.reset", b"branch", 128),
    (b"color.diff.hunk", b"diff", 0), (b"color.diff.frag", b"diff", 128),
]
UNKNOWN_KEYS = [
    b"color.Paint.third", b"color.other.first-one", b"colors.paint.third",
    b".test.int", b"..int", b"te.int", b"middle.Exact.x", b"middle.two.other",
    b"empty.xx.middle", b"any-last.x.y", b"any-last..x", b"any-last.sub.x.y", b"literal.abcd.last", b"xx.star",
    b"middle.x.lasttt", b"middle.Exact.Other-word", b"an-lats.x", b"other.key",
]
# keys that the built-in rows, which the second reader does not have, do not report either
UNKNOWN_BUILT_IN = [b"color.diff-highlight.oldNormal", b"color.Status.add", b"pretty.a.b", b"gui.x.y", b"lfs.url", b"core.crlf", b"user.nickname", b"user.home", b"branch.x.base", b"branch.x.rebase-merges", b"branches.main.rebse",
                    b"gitlab.url", b"alien.x"]

# which row decides: key, value, and the reason
FIRST_ROWS = [
    (b"first.twice", b"yes", INTEGER_FAULT), (b"first.twice", b"1", None), (b"first.later", b"yes", None),
    (b"first.later", b"", None), (b"first.sub.x", b"red", BOOLEAN_FAULT),
    (b"first.sub.x", b"yes", None), (b"first.Sub.x", b"yes", INTEGER_FAULT),
    (b"first.sub.y", b"yes", COLOR_FAULT), (b"first.sub.y", b"red", None),
]

# misspelled keys of built-in rows, and the key that is suggested, or None if no key is near
MISSPELLED_BUILT_IN = [
    (b"pull.rebas", b"pull.rebase"), (b"pul.rebase", b"pull.rebase"), (b"branch.main.remte", b"branch.main.remote"),
    (b"color.brnch.local", b"color.branch.local"), (b"core.autocrfl", b"core.autocrlf"), (b"pull.everything", None),
    (b"psuh.default", b"push.default"), (b"alais.st", b"alias.st"), (b"branch.main.rebsae", b"branch.main.rebase"),
    (b"push.autoSetup", b"push.autoSetupRemote"), (b"core.exclude", b"core.excludesFile"), (b"push.default-mode", b"push.default"),
    (b"remote.url", b"remote.NAME.url"), (b"branch.merge", b"branch.NAME.merge"), (b"user.work.email", b"user.email"),
    (b"core.x.bare", b"core.bare"), (b"url.insteadof", b"url.NAME.insteadOf"), (b"filter.clean", b"filter.NAME.clean"),
    (b"rebase.conflictstyle", b"merge.conflictStyle"), (b"pull.default", b"push.default"), (b"push.rebase", b"pull.rebase"),
    (b"commit.signoff", b"format.signOff"), (b"core.defaultbranch", b"init.defaultBranch"), (b"user.editor", b"core.editor"),
    (b"core.email", b"user.email"), (b"maintainance.auto", b"maintenance.auto"), (b"diff.renam", b"diff.renames"), (b"core.longpath", b"core.longpaths"),
    (b"grep.color", b"color.grep"), (b"showbranch.color", b"color.showBranch"), (b"log.color", None),
    (b"color.diff.colormoved", b"diff.colorMoved"),
    # another word for that of a row
    (b"color.diff.removed", b"color.diff.old"), (b"color.diff.added", b"color.diff.new"), (b"user.username", b"user.name"),
    (b"mergetool.kdiff3.command", b"mergetool.kdiff3.cmd"), (b"difftool.kdiff3.command", b"difftool.kdiff3.cmd"),
    (b"diff.x.textconvert", b"diff.x.textconv"), (b"branches.main.remote", b"branch.main.remote"),
]

# built-in rows: key, value, and a prefix of the line's severity and reason
BUILT_IN = [
    (b"core.bare", b"maybe", BOOLEAN_FAULT), (b"core.bare", b"true", None), (b"core.bare", None, None),
    (b"CORE.Bare", b"2x", BOOLEAN_FAULT), (b"core.bigfilethreshold", b"lots", INTEGER_FAULT),
    (b"core.bigFileThreshold", b"512m", None), (b"core.bigFileThreshold", None, NO_VALUE),
    (b"core.bigFileThreshold", b"-1", b"error: out of range: not from 0 to "),
    (b"push.default", b"everything", b"error: not one of: "), (b"push.default", b"simple", None),
    (b"push.default", b"nothing", None), (b"push.default", None, NO_VALUE),
    (b"push.default", b"tracking", b"warning: deprecated: use upstream"),
    (b"core.commentchar", b"auto", b"warning: deprecated: use #"), (b"core.commentchar", b"Auto", None), (b"core.commentchar", b";", None),
    (b"core.commentstring", b"auto", b"warning: deprecated: use #"), (b"core.commentstring", b"//", None),
    (b"core.prefersymlinkrefs", None, b"warning: deprecated: use false"), (b"core.prefersymlinkrefs", b"no", None),
    (b"color.branch.local", b"purple", COLOR_FAULT), (b"color.branch.local", b"bold red", None),
    (b"branch.x.rebase", b"maybe", b"error: not a boolean, nor one of: "), (b"branch.x.rebase", b"true", None),
    (b"branch.a.b.rebase", b"interactive", None), (b"branch.x.rebase", None, None),
    (b"core.excludesFile", b"", None), (b"core.excludesfile", b"~/x", None),
    (b"core.excludesfile", None, NO_VALUE), (b"core.excludesfile", b"~no-such-user/x", NO_HOME), (b"core.fsmonitor", b"yes", None),
    (b"core.fsmonitor", b"~no-such-user/x", NO_HOME), (b"gpg.program", b"~no-such-user/x", NO_HOME), (b"core.editor", b"~no-such-user/x", None),
    (b"core.whitespace", b"incomplete-line", None), (b"pull.autostash", None, None), (b"http.maxretries", b"3", None),
    (b"maintenance.strategy", b"incrementl", b"error: not one of: "), (b"core.fsyncobjectfiles", b"true", b"warning: deprecated: use core.fsync"),
    (b"remote.x.fetch", b"+refs/heads/*:refs/remotes/x", b"error: not a refspec"), (b"remote.x.push", b"HEAD:", b"error: not a refspec"),
    (b"init.defaultBranch", b"my branch", b"error: not the name of a branch"), (b"alias.x", b"log \"a", b"error: not a command: "),
    (b"alias.\xc3\xbc.command", b"", b"error: not a command: "), (b"core.notesRef", b"commits", b"error: not one of: refs/notes/*"),
    (b"core.notesRef", b"refs/notes/x", None), (b"fsck.missingEmail", b"ignore", None), (b"receive.fsck.badDate", b"WARN", b"error: not one of: error, warn, ignore"),
    (b"color.blame.highlightRecent", b"blue,soon,wite", b"error: not colors with dates between them"), (b"sendemail.smtpEncryption", b"starttls", b"warning: not one of: ssl, tls"),
    # 2.55.0 takes these, or Git for Windows or an older credential manager does
    (b"http.uploadarchive", b"true", None), (b"fetch.hideRefs", b"refs/x", None), (b"gitcvs.authdb", b"/x", None), (b"user.signature", b"x", None),
    (b"http.schannelCheckRevoke", b"best-effort", None), (b"credential.interactive", b"auto", None), (b"credential.validate", b"x", None),
    # what git-config(1) of 2.55.0 calls deprecated
    (b"add.ignore-errors", b"true", b"warning: deprecated: use add.ignoreErrors"), (b"pack.writeBitmaps", b"true", b"warning: deprecated: use repack.writeBitmaps"),
    (b"commitGraph.readChangedPaths", b"true", b"warning: deprecated: use commitGraph.changedPathsVersion"),
    (b"sendemail.signedOffCc", b"true", b"warning: deprecated: use sendemail.signedOffByCc"),
    (b"remote.x.skipDefaultUpdate", b"true", b"warning: deprecated: use remote.NAME.skipFetchAll"),
    (b"trailer.x.command", b"y", b"warning: deprecated: use trailer.NAME.cmd"),
    (b"versionsort.prereleaseSuffix", b"-rc", b"warning: deprecated: use versionsort.suffix"),
    (b"core.bare", b"2g", NO_INT), (b"add.interactive.usebuiltin", b"true", b"warning: Git reads it only before 2.40"),
]

# rows that come before the built-in ones, and what they find: key, value, and the reason
OWN_SETTINGS = b"core.bare int\npush.default color\nbranch.*.rebase int 0 0x7fffffffffffffff\n"
OWN_ROWS = [
    (b"core.bare", b"true", INTEGER_FAULT), (b"core.bare", b"1", None),
    (b"push.default", b"simple", COLOR_FAULT), (b"push.default", b"bold", None),
    (b"branch.x.rebase", b"true", INTEGER_FAULT), (b"branch.x.rebase", b"-1", NO_SIZE),
    (b"color.branch.local", b"purple", COLOR_FAULT),
]

# why a line is not a row
NO_DOT, NO_KIND, NO_SUCH_KIND, NO_WORDS, WORDS, BOUNDS, NOT_IN_ORDER = (
    b"no dot in the key", b"no kind after the key", b"no such kind: ", b"no words after the kind",
    b"a word after a kind without words: ", b"the bounds are not two integers", b"the first bound is greater than the second")
NO_VERSION = b"no version after since= or until="
UNWANTED = b"the kind does not take the value after is="
# texts of settings with such a line, its number, and why it is not a row
BAD_ROWS = [
    (b"nodot bool\n", 1, NO_DOT), (b"test.x\n", 1, NO_KIND), (b"test.x \n", 1, NO_KIND), (b"nodot\n", 1, NO_DOT),
    (b"test.x,bool\n", 1, NO_KIND), (b"nodot boolean\n", 1, NO_DOT), (b"test.x\x0bbool\n", 1, NO_KIND),
    (b"test.x boolean\n", 1, NO_SUCH_KIND + b"boolean"), (b"test.x BOOL\n", 1, NO_SUCH_KIND + b"BOOL; did you mean bool?"), (b"test.x bool-or\n", 1, NO_SUCH_KIND + b"bool-or"),
    (b"test.x int,\n", 1, NO_SUCH_KIND + b"int,; did you mean int?"), (b"test.x bool yes\n", 1, WORDS + b"yes"), (b"test.x int 1\n", 1, BOUNDS),
    (b"test.x int 1 2 3\n", 1, BOUNDS), (b"test.x int 1 two\n", 1, BOUNDS), (b"test.x int one 2\n", 1, BOUNDS),
    (b"test.x text \\#b text\n", 1, WORDS + b"#b"), (b"test.x int 64 4\n", 1, NOT_IN_ORDER), (b"test.x int 1k 1023 # c\n", 1, NOT_IN_ORDER), (b"test.x alone\n", 1, NO_KIND), (b"test.x needs-value warn\n", 1, NO_KIND),
    (b"test.x warn alone bool\n", 1, NO_SUCH_KIND + b"alone"), (b"test.x alone needs-value bool\n", 1, NO_SUCH_KIND + b"needs-value"),
    (b"test.x is=maybe bool\n", 1, UNWANTED), (b"test.x is= word a\n", 1, UNWANTED), (b"test.x is=3 must int 4 64\n", 1, UNWANTED),
    (b"test.x must is=1 int\n", 1, NO_SUCH_KIND + b"is=1"), (b"test.x since=2 bool\n", 1, NO_VERSION), (b"test.x since=2.1 until= bool\n", 1, NO_VERSION),
    (b"test.x until=2.1 since=2.0 bool\n", 1, NO_SUCH_KIND + b"since=2.0"), (b"test.x since=2.x\n", 1, NO_VERSION),
    (b"test.x size\n", 1, NO_SUCH_KIND + b"size"), (b"test.x wrod a\n", 1, NO_SUCH_KIND + b"wrod; did you mean word?"), (b"test.x sort-key\n", 1, NO_WORDS), (b"test.x text-any-case\n", 1, NO_SUCH_KIND + b"text-any-case"), (b"test.x \\\\bool\n", 1, NO_SUCH_KIND + b"\\\\bool; did you mean bool?"), (b"test.x # bool\n", 1, NO_KIND), (b"test.x word #a\n", 1, NO_WORDS), (b"test.x word\n", 1, NO_WORDS),
    (b"test.x word-any-case\n", 1, NO_WORDS), (b"test.x bool-or-word \n", 1, NO_WORDS), (b"test.x path y\n", 1, WORDS + b"y"),
    (b"test.x bool-or-word-any-case\n", 1, NO_WORDS), (b"test.x bool\nnodot bool", 2, NO_DOT),
    (b"# first\n\ntest.x bool\n\ntest.y bool\ttrue\ntest.z none\n", 5, WORDS + b"true"),
]

# other texts of settings, which are valid
GOOD_ROWS = [b"", b"\n", b"\n\n", b"#\n", b"# nodot bool", b"#nodot bool\n\n", b"test.x bool",
             b"test.x\t \tword  a\t\tb\n", b"test.x alone\twarn int -1 0x10k\n", b"test.x int 1 1", b"test.x bool # a comment", b"test.x bool #", b"test.x int 1 2 #3",
             b" \t \n\r\n", b"  # a comment\n", b"  test.x bool\r\n"]

# files, the output for them, and the numbers of entries, judged entries, unknown keys and findings
FILES = [
    (b"", b"", (0, 0, 0, 0)), (b"# [test] int\n;", b"", (0, 0, 0, 0)), (b"int\n", b"", (1, 0, 1, 0)),
    (b"\xef\xbb\xbf[test]int", b"-:1:10: error: test.int: no value [no-value]\n", (1, 1, 0, 1)),
    (b"[TEST]\r\n\tINT = 1\\\r\n0x # no\n", b"-:2:2: error: test.int: '10x': " + INTEGER_FAULT[7:] + b" [bad-integer]\n", (1, 1, 0, 1)),
    (b"[test]\nint\n[test\nint\n", b"-:2:1: error: test.int: no value [no-value]\n-:3: " + BAD_LINE, (1, 1, 0, 2)),
    (b'[test]\n\tint = "1\n', b"-:2: " + BAD_LINE, (0, 0, 0, 1)), (b"\n=", b"-:2: " + BAD_LINE, (0, 0, 0, 1)),
    (b"[test]\nint = 1\\2\n", b"-:2: " + BAD_LINE, (0, 0, 0, 1)), (b"#\0\n[x]y\0", b"-:2: " + NUL, (0, 0, 0, 1)),
    (b"[test]\nint\nint = 1\0\n", b"-:2:1: error: test.int: no value [no-value]\n-:3: " + NUL, (1, 1, 0, 2)),
]

# a file, and the line of JSON for it
JSON_LINE = (b'[test]\nint = "\\"\\\\\\n\x1b\xff\xc3\xa9"\n',
             b'{"code":"bad-integer","column":1,"file":"-","fingerprint":"a7f11f434d2027147811b191589433bb","fix":null,"key":"test.int","key_base64":null,"line":2,'
             b'"reason":"Integers needs to be positive or negative numbers which may'
             b' have a suffix like 1k, 42, or 50G","severity":"error","suggested_key":null,'
             b'"suggested_value":null,"value":"\\"\\\\\\n\\u001b\xef\xbf\xbd\xc3\xa9","value_base64":"IlwKG//DqQ=="}\n')
# files, and the line, severity, key, value, reason, code, suggested key and suggested value of each finding
JSON = [
    (b"", []), (b"[test]\nint = 1\n[other]x\n", []),
    (b"[test]\nint\n", [(2, "error", "test.int", None, "no value", "no-value", None, None)]),
    (b"[test]\nbool = yes\nword-any-case = TWO\n", [(2, "note", "test.bool", "yes", "should be true", "not-canonical", None, "true"),
                                                   (3, "note", "test.word-any-case", "TWO", "should be Two", "not-canonical", None, "Two")]),
    (b"[test]\nin = \"\"\nwrong\n", [(2, "warning", "test.in", None, "unknown key; did you mean test.int?", "unknown-key", "test.int", None),
                                   (3, "warning", "test.wrong", None, "unknown key", "unknown-key", None, None)]),
    (b'[middle "\\",\\"line\\":9\\\\\xff"]\nlst\n', [
        (2, "warning", 'middle.","line":9\\\ufffd.lst', None,
         'unknown key; did you mean middle.","line":9\\\\\\xff.last?', "unknown-key", 'middle.","line":9\\\ufffd.last', None)]),
    (b"\n[test\n", [(2, "error", None, None, BAD_LINE.decode().removeprefix("error: ").strip(), "invalid-line", None, None)]),
]

# a file, and the severities for which `--fail-on` makes the status 1
FAIL_ON = [
    (b"[test]\nint = x\nbool = yes\n", ["note", "warning", "error"]), (b"[test\n", ["note", "warning", "error"]),
    (b"[mark]\nwarn = x\n", ["note", "warning"]), (b"[test]\nin = 1\n", ["note", "warning"]),
    (b"[test]\nbool = yes\n", ["note"]), (b"[test]\nbool = true\n[other]x\n", []),
]

# names of submodules, and whether Git 2.55.0 takes them
SUBMODULES = [(b"x", True), (b"a..b", True), (b"..x/y", True), (b"../x", False), (b"a/..", False), (b"a\\\\..\\\\b", False), (b"", False)]
# aliases, and the lines of those whose expansion Git says does not terminate
ALIASES = b"""[alias]
\ta = b x
\tB = a
\tloop = loop -x
\tx = a
\tlog = lg
\tlg = log --graph
\tstatus = status -s
\tsh = !loop
\tok = checkout
\ttwice = twice
\ttwice = log
[alias "c1"]
\tcommand = c2
[alias "c2"]
\tcommand = c1
"""
ENDLESS = [2, 3, 4, 5, 14, 16]
# lines below `[submodule "x"]` in a file .gitmodules, and what Git 2.55.0 does at `git status`: it stops, goes on with a
# warning, or takes them
MODULES = [(b"update = !cmd", "error"), (b"update = foo", "error"), (b"update = rebase", None), (b"path = -x", "warning"), (b"url = -y", "warning"),
           (b"ignore = foo", "warning"), (b"ignore", "error"), (b"path = x", None), (b"url = ./-y", None), (b"branch = -x", None),
           (b"fetchRecurseSubmodules = foo", "error"), (b"shallow = foo", "error"), (b"path", "error"), (b"branch", "error")]

# files with comments that leave out findings, how many findings are told, and how many are ignored
COMMENTS = [
    (b"[core]\n# git-config-check: ignore bad-boolean\n\tbare = x\n\tbare = x\n", 1, 1),
    (b"[core]\n\t;git-config-check: ignore no-value, bad-boolean\n\tbare = x\n", 0, 1),
    (b"[core]\n# git-config-check: ignore bad-integer\n\tbare = x\n", 1, 0), (b"[core]\n# git-config-check: bad-boolean\n\tbare = x\n", 1, 0),
    (b"[core]\n# git-config-check: ignore bad-boolean\n\n\tbare = x\n", 1, 0),
    (b"# git-config-check: ignore-file bad-boolean\n[core]\n\tbare = x\n\tbare = y\n\teditor\n", 1, 2),
    (b"# x\n# git-config-check: ignore-file bad-boolean\n[core]\n\tbare = x\n", 1, 0),
    (b"[core]\n\tbare = no # git-config-check: ignore bad-boolean\n\tbare = x\n", 1, 0),
    (b"# git-config-check: ignore invalid-line\n[core\n", 0, 1),
]

# keys, and what --explain says of the row, which 2.55.0 reads so
EXPLAINED = [
    ("core.autocrlf", "core.autocrlf: a boolean, or one of: input (in any case); a key alone is right; Git stops at a wrong value\n"),
    ("Branch.x.Rebase", "branch.*.rebase: a boolean, or one of: merges, m, interactive, i; a key alone is right; Git stops at a wrong value\n"),
    ("pull.autostash", "pull.autoStash: a boolean; since Git 2.51; a key alone is right; Git stops at a wrong value\n"),
    ("core.compression", "core.compression: an integer from -1 to 9; a key alone is wrong; Git stops at a wrong value\n"),
    ("pack.writebitmaps", "pack.writeBitmaps: a boolean; deprecated: use repack.writeBitmaps; a key alone is right; Git stops at a wrong value\n"),
    ("remote.o.fetch", "remote.*.fetch: a refspec of a fetch; a key alone is wrong; Git stops at a wrong value\n"),
    ("ssh.variant", "ssh.variant: one of: auto, ssh, plink, putty, tortoiseplink, simple; a key alone is wrong; Git goes on at a wrong value\n"),
]

# arguments that are wrong
WRONG_ARGUMENTS = [
    (["--no-such-argument"], "unknown option `no-such-argument'"), (["-x"], "unknown switch `x'"),
    (["--settings"], "option `settings' requires a value"), (["--show-scope"], "unknown option `show-scope'"),
    (["--show-origin"], "unknown option `show-origin'"), (["--canonical=maybe"], "option `canonical' takes no value"),
    (["--canonical", "--canonical"], "option `canonical' is given twice"), (["--fail-on"], "option `fail-on' requires a value"),
    (["--fail-on", "fatal"], "no value of --fail-on: fatal"),
    (["--fail-on", "note", "--fail-on", "note"], "option `fail-on' is given twice"),
    (["--format"], "option `format' requires a value"), (["--format", "xml"], "no value of --format: xml"),
    (["--format", "json", "--format", "json"], "option `format' is given twice"),
    (["--fix", "--diff", "x"], "only one of --fix, --diff and --statistics"),
    (["--explain", "no-code"], "no such code: no-code; --explain all lists them"),
    (["--explain", "no.such.key"], "no row has the key no.such.key"),
    (["--fix"], "--fix changes only files that are named: name one"),
    (["--fix", "-"], "--fix cannot change standard input: try --diff"),
    (["--ignore", "no-code", "-"], "neither a code nor a key: no-code"), (["--git"], "option `git' requires a value"),
    (["--git", "2.39", "--git", "2.39"], "option `git' is given twice"), (["--color"], "option `color' requires a value"),
    (["--color", "red"], "no value of --color: red"), (["-fix"], "did you mean `--fix` (with two dashes)?"),
    (["--no-canonical"], "unknown option `no-canonical'")]

# arguments, and the same in another form
SAME_ARGUMENTS = [
    (["--can", "-"], ["--canonical", "-"]), (["-", "--canonical"], ["--canonical", "-"]), (["--git=2.39", "-"], ["--git", "2.39", "-"]),
    (["--ignore", "bad-boolean", "--no-ignore", "-"], ["-"]), (["--format", "json", "--", "-"], ["--format=json", "-"])]

# texts that are no versions of Git, and versions, each with the severity of `pull.autostash = true` by it
WRONG_VERSIONS = ["two", "2", "", "2.", ".39", "v2.39", "2,39"]
VERSIONS = {"2.39": b"note", "2.47.1.windows.1": b"note", "2.50.0.rc1": b"note", "2.51.0.12.gabc": None, "2.50.9": b"note", "1.99": b"note", "2.51": None, "2.51.0": None, "3.0": None}

# arguments that are not UTF-8
ILL_FORMED_ARGUMENTS = [[b"--canonical\xff"], [b"--settings", b"\xff"], [b"\xc3"]]
