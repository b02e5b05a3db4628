"""The words, names and lines that cases are made of, good ones and faulty ones.

$T stands for a type of the configuration and $N for a name.
"""
import base64

import values

TEXT = values.PREFIX + b"15"

TYPES = {
    b"dc": b"0.9.2342.19200300.100.1.25", b"cn": b"2.5.4.3", b"sn": b"2.5.4.4", b"ou": b"2.5.4.11", b"o": b"2.5.4.10",
    b"description": b"2.5.4.13", b"uid": b"0.9.2342.19200300.100.1.1", b"mail": b"0.9.2342.19200300.100.1.3",
    b"userPassword": b"2.5.4.35", b"structuralObjectClass": b"2.5.21.9", b"entryUUID": b"1.3.6.1.1.16.4",
    b"creatorsName": b"2.5.18.3", b"createTimestamp": b"2.5.18.1", b"entryCSN": b"1.3.6.1.4.1.4203.666.1.7",
    b"title": b"2.5.4.12", b"telephoneNumber": b"2.5.4.20", b"x-y_z": b"1.1", b"A1": b"1.2.3", b"CamelCase": b"00.05",
    b"member": b"2.5.4.31", b"owner": b"2.5.4.32", b"seeAlso": b"2.5.4.34",
    b"a": b"2.5.4.00", b"aTypeWhoseNameAloneIsSeventySixBytesLongAndSoFillsALineBeforeItsValueBeginsX": b"9.9.9",
}
WORDS = [
    b"a", b"b", b"ab", b"A", b"x1", b"ex", b"org", b"my org", b"a  b", b"a   B", b"a-b", b"_", b".", b"-", b"1.2",
    b"Bob", b"bob", b"BOB", b"long" * 20, b"z" * 70, b"0", b"a.b_c-d e", b"x y z",
]

# types whose values are names
NAME_TYPES = [b"member", b"owner", b"seeAlso"]

# lines of a dir.conf that say nothing, aren't known, and look like a continuation; and classes and other lines, good and bad
IDLE_LINES = [b"", b"", b"# note", b"#", b'#suffix "dc=no"', b"# \xff\x00 note", b"#\t"]
KEYWORDS = [
    b"overlay x", b"attributetypes ( 1.1 )", b"attributetype(", b'suffix"dc=ex"', b"\r", b"include x", b"\xffsuffix",
    b")", b"index,", b'"', b"Attributetyp",
]
OPEN_LINES = [
    [b" x"], [b"\tx"], [b" "], [b"\t"], [b" # c"], [b' suffix "dc=ex"'], [b"# c", b" d"], [b"", b" d"],
    [b"# c", b"\td"], [b"attributetype ( 9.9", b" NAME 'n' )"],
]
OTHER_LINES = [
    b"objectclass ( 9.9 NAME 'domain' )", b"objectclass", b"ObjectClass ( 2.5.6.0 )", b"attributetype",
    b"attributetype ", b"attributetype ( )", b"attributetype ( 9.9 NAME 'n' )",
    b"objectclass ( 9.9 )", b"objectclass ( 9.9 NAME 'top' )", b"objectclass ( 2.5.6.0 NAME 'x' MUST no )",
    b"objectclass ( 9.9 SUP no )", b"objectclass ( 9.9 MUST $T MAY ( $T $ objectClass ) )", b"objectclass ( 9.9 MAY no )",
    b"objectclass ( 9.9 MUST ( $T $T ) )", b"objectclass ( 9.9 ABSTRACT AUXILIARY )", b"objectclass ( 9.9 SUP ( top $ ) )",
    b"objectclass ( 9.9 SUP ( 'top' $ 'TOP' ) )", b"objectclass ( 9.9 MUST 'cn' )",
    b"objectclass ( 9.9 SUP ( top $ '' ) )", b"objectclass ( 9.9 SUP ( '(' $ top ) )", b"objectclass ( 9.9 SUP '2.5.6.0' )",
    b"objectclass ( 9.9 SUP ( top $ '2.5.6.' ) )", b"objectclass ( 9.9 SUP 'top ' )", b"objectclass ( 9.9 SUP 2..5 )",
    b"objectclass ( 9.9 MAY $T SUP top x-a 'b' )",
    b"objectclass ( 9.9 NAME ( 'dn' 'control' ) )", b"objectclass ( 2.5.4.0 NAME 'objectClass' )",
    b"objectclass ( 9.9 SYNTAX 1.1 )", b"objectclass ( 9.9 STRUCTURAL structural )", b"objectclass ( 9.9 NAME ( ) )",
]
# index lines, most of them with a fault
INDEX_KINDS = [b"eq", b"pres", b"sub"]
INDEX_LINES = [
    b"index $T eq", b"index $T pres", b"index $T sub", b"index $T sub,eq,pres", b"index $T,$T pres,pres", b"INDEX\t$T\t eq \t",
    b"index $T\n eq", b"index\n  $T\n\tpres", b"index objectClass eq,pres,eq", b"index 2.5.4.0 sub",
    b"index OBJECTCLASS,$T pres", b"index", b"index  ", b"index $T", b"index $T eq pres", b"index $T eq # c", b"index $T, eq",
    b"index $T, $T eq", b"index ,$T eq",
    b"index $T,,$T eq", b"index , eq", b"index $T eq,", b"index $T ,eq", b"index $T eq,,pres", b"index $T ,", b"index no, eq",
    b"index $T EQ", b"index $T eq,Pres", b"index $T approx", b"index $T subany", b"index $T eq\r", b"index $T\x0beq",
    b"index no eq", b"index $T,no pres", b"index no,$T sub,x", b"index default eq", b"index $T;x pres", b'index "$T" pres',
    b"index top pres", b"index 2.5.6.0 pres", b"index\x0b$T eq", b"index no sub,EQ", b"index ( $T ) eq", b"index '$T' pres",
    b"Indexes $T eq", b"index $T,\xff eq", b"index dn pres",
]
# definitions that don't go with those before them, or do so only just; and some with two faults
DEFINITIONS = [
    b"( 9.8 NAME 'n' SUP $T )", b"( 9.8 NAME 'n' SUP '$T' )", b"( 9.8 NAME 'n' SUP no )", b"( 9.8 NAME 'n' SUP n )",
    b"( 9.8 NAME 'n' SUP '' )", b"( 9.8 NAME 'n' SUP '(' )", b"( 9.8 NAME 'n' SUP ' $T' )", b"( 9.8 NAME 'n' SUP '2.5.4.0' )",
    b"( 9.8 NAME 'n' SUP '$T{64}' )", b"( 9.8 NAME 'n' SUP 2..5 )",
    b"( 9.8 NAME 'n' SUP $T EQUALITY integerMatch )", b"( 9.8 NAME 'n' SUP $T EQUALITY caseExactMatch )",
    b"( 9.8 NAME 'n' SUP $T EQUALITY caseIgnoreIA5Match )", b"( 9.8 NAME 'n' SUP $T EQUALITY nosuchMatch )",
    b"( 9.8 NAME 'n' SUP $T SYNTAX $S26 )", b"( 9.8 NAME 'n' SUP $T SYNTAX $S15 )", b"( 9.8 NAME 'n' SUP $T SYNTAX $S40 )",
    b"( 9.8 NAME 'n' EQUALITY integerMatch SYNTAX $S15 )", b"( 9.8 NAME 'n' EQUALITY distinguishedNameMatch SYNTAX $S15 )",
    b"( 9.8 NAME 'n' EQUALITY distinguishedNameMatch SYNTAX $S12 )", b"( 9.8 NAME 'n' SYNTAX $S15 COLLECTIVE )",
    b"( 9.8 NAME 'n' SUP no COLLECTIVE )", b"( 9.8 NAME '$N' SYNTAX $S15 COLLECTIVE )", b"( 9.8 NAME '$N' SUP no )",
    b"( $O NAME 'n' SYNTAX $S15 )", b"( $O NAME 'n' SUP no COLLECTIVE )", b"( $O NAME 'dn' SYNTAX $S15 )",
    b"( 9.8 NAME ( 'n' 'N' ) SYNTAX $S15 )", b"( 9.8 NAME ( 'n' '$N' ) SYNTAX $S15 )",
    b"( 9.8 NAME ( 'n' 'Version' ) SUP $T )",
    b"( 9.8 NAME 'objectclass' SYNTAX $S38 )", b"( 2.5.4.0 NAME '$N' SUP no COLLECTIVE )", b"( 2.5.6.0 NAME 'n' SUP $T )",
    b"( 9.8 NAME 'top' SUP $T )", b"( 9.8 SUP $T )", b"( 9.8 NAME 'n' SUP $T EQUALITY integerMatch COLLECTIVE )",
    b"( 9.8 NAME 'n' SUP objectClass )", b"( 9.8 NAME 'n' SUP 2.5.4.0 EQUALITY caseIgnoreMatch )", b"( 9.8 NAME 'n' SUP $O )",
    b"( 9.8 NAME 'n' SYNTAX $S12 EQUALITY integerMatch )", b"( 9.8 NAME 'n' SYNTAX $S27 EQUALITY distinguishedNameMatch )",
    b"( 9.8 NAME 'n' SUP $T SYNTAX $S27 EQUALITY integerMatch )", b"( 9.8 NAME 'n' EQUALITY caseIgnoreMatch )",
]
# fields of types and of classes that are put anywhere into a definition, most of them faults
FIELDS = [
    b"OBSOLETE", b"DESC 'x'", b"DESC ''", b"DESC x", b"DESC '( $ )'", b"NAME 'y'", b"NAME y", b"NAME ( 'y' 'z' )",
    b"NAME ( )", b"NAME ( 'y' $ 'z' )", b"NAME 'y' 'z'", b"SINGLE-VALUE", b"single-value SINGLE-VALUE",
    b"NO-USER-MODIFICATION", b"COLLECTIVE", b"USAGE userApplications", b"USAGE DSAOPERATION", b"USAGE x",
    b"USAGE 'dSAOperation'", b"USAGE", b"X-A 'b'", b"x-a 'b' X-A 'c'",
    b"X-A ( 'b' 'c' )", b"X-A ( )", b"X-A b", b"X-A", b"XA 'b'", b"ORDERING x", b"ORDERING 'x'", b"ORDERING", b"SUBSTR x",
    b"SUBSTR ( x )", b"SYNTAX $S15", b"SYNTAX '$S15'", b"SYNTAX $S15{64}", b"SYNTAX '$S15{64}'", b"SYNTAX $S15{}",
    b"SYNTAX x",
    b"SYNTAX $S15 {64}", b"SYNTAX $S15{6 4}", b"SYNTAX 1", b"SYNTAX", b"EQUALITY 'caseIgnoreMatch'", b"EQUALITY 2.5.13.2",
    b"EQUALITY ( caseIgnoreMatch )", b"EQUALITY ''", b"EQUALITY 'a b'", b"EQUALITY '2.5.13.2'", b"EQUALITY 1x{",
    b"ORDERING ''", b"ORDERING '('", b"ORDERING 'n-_9'", b"SUBSTR ''", b"SUBSTR '1.2.'", b"SUBSTR '_'", b"SYNTAX ''",
    b"SYNTAX 'x'", b"SUP ''", b"SUP $T", b"SUP ( $T )", b"SUP ( $T $ $T )", b"MUST $T", b"MAY ( $T )", b"ABSTRACT",
    b"STRUCTURAL", b"AUXILIARY", b"$", b"(", b")", b"'", b"''", b"x", b"{64}", b"-",
]
# a definition; what changes only its blanks; and what is put in place of a part of it
DEFINITION = b"attributetype ( 9.8.7 NAME 'n7' EQUALITY caseIgnoreMatch SYNTAX " + TEXT + b" )"
BLANK_EDITS = [(b"( ", b"("), (b" )", b")"), (b"NAME '", b"NAME'"), (b"' E", b"'E")]
DEFINITION_EDITS = [
    (b" )", b" SINGLE-VALUE )"), (b" )", b""), (b" )", b" ) )"), (b" )", b" ) x"), (b" )", b" ) #"), (b" )", b" )\0"),
    (b" )", b")"), (b" )", b" $ )"), (b" )", b" )\t "), (b" )", b" X-A 'b' )"), (b" )", b" OBSOLETE )"),
    (b" )", b"{64} )"), (b" )", b"{} )"), (b".15 )", b".26 )"), (b"( ", b""), (b"( ", b"("), (b" ( ", b"\t(\t"),
    (b"( ", b"( $ "), (b"( ", b"( ( "), (b"9.8.7", b"9"), (b"9.8.7", b"0"), (b"9.8.7", b"007.1"), (b"9.8.7", b"9.8.7."),
    (b"9.8.7", b".9.8"), (b"9.8.7", b"9..8"), (b"9.8.7", b"x"), (b"9.8.7", b"9.8x"), (b"9.8.7 ", b""),
    (b"9.8.7", b"'9.8.7'"), (b"9.8.7", b"9" * 60 + b".1"), (b"'n7'", b"( 'n7' )"), (b"'n7'", b"'n7 '"),
    (b"'n7'", b"'1n7'"), (b"'n7'", b"'-n'"), (b"'n7'", b"'_n'"), (b"'n7'", b"'n.1'"), (b"'n7'", b"'n;x'"),
    (b"'n7'", b"'n\xc3\xa9'"), (b"'n7'", b"'n\0'"), (b"'n7'", b"''"), (b"'n7'", b"'n-_-'"), (b"'n7'", b"n7"),
    (b"'n7'", b'"n7"'), (b"'n7'", b"n7'"), (b"'n7'", b"'n7"), (b"'n7'", b"'" + b"n" * 300 + b"'"),
    (b"'n7'", b"'n7' 'n8'"), (b"NAME '", b"NAME'"), (b"' E", b"'E"), (b"NAME", b"name"), (b"NAME", b"NAMES"),
    (b" NAME", b"\t\tNAME"), (b"EQUALITY", b"Equality"), (b"EQUALITY", b"ORDERING"),
    (b"EQUALITY caseIgnoreMatch ", b""), (b"SYNTAX", b"syntax"), (b"SYNTAX", b"DESC 'x' SYNTAX"),
    (b"SYNTAX", b"SUP cn SYNTAX"), (b"caseIgnoreMatch", b"CASEIGNOREMATCH"), (b"caseIgnoreMatch", b"caseExactMatch"),
    (b"caseIgnoreMatch", b"'caseIgnoreMatch'"), (b"caseIgnoreMatch", b"2.5.13.2"),
    (b"NAME 'n7' EQUALITY caseIgnoreMatch", b"EQUALITY caseIgnoreMatch NAME 'n7'"),
    (b"9.8.7 NAME 'n7'", b"NAME 'n7' 9.8.7"), (b" ", b"\x0b"), (b"attributetype", b"ATTRIBUTETYPE"),
]
BAD_SUFFIXES = [
    b"", b"=", b"ex", b"nosuch=ex", b"$T", b"$T=", b"=ex", b"$T = ex", b"$T=ex ", b"$T=a+$T=b", b"$T=a,", b",$T=a",
    b"$T=a, $T=b", b"$T=a,,$T=b", b"$T=\xc3\xa9", b"$T=\xff", b"$T=\\61", b"$T=a\tb", b'$T=a"', b"$T=#61", b"$T=a=b",
    b"$T=a;b", b"objectClass=a b", b"objectClass=", b"$T=a,nosuch=b", b"nosuch=a,$T=b", b"$T;x=a", b"$T=a\0", b"  ",
    b"$T=a\\", b"$T=a\\ ", b"$T=a\\20", b"$T=\\ a", b"$T=a\\,b", b"$T=a\\zb", b"$T=a\\6", b"$T=a<b", b"$T=a>b", b"$T==a",
    b"$T=\\#a", b"$T=a+$T=b,$T=c", b"$T=a+", b"+$T=a", b"$T=a++$T=b", b"$T = a + $T = b , $T = c", b"$T=a+nosuch=b", b"$T=\\ff",
    b"$T=\\c3\\a9", b"$T=\xc3\\a9", b"$T=\\\"a\\\"", b"$T=1+$T=2+$T=3", b"$T=a\n b", b"$T=a,\n\t$T=b", b"$T=a\\\n b",
]
SUFFIX_LINES = [
    b'suffix "$N"', b"suffix $N", b'suffix "$N"\t', b"suffix $N\t", b'suffix " $N"', b'suffix "$N "', b'suffix ""$N""',
    b'suffix "$N', b'suffix $N"', b"suffix \t\t $N   ", b'suffix "', b'suffix ""', b"suffix", b"suffix   ", b"suffix\t",
    b"suffix '$N'", b'suffix "$N" x', b'suffix "$N"\r', b"suffix $N\0", b'suffix "$N,"', b'suffix ",$N"',
    b'suffix "$N" "$N"', b"suffix\x0b$N", b'suffix\t"$N" ', b'suffix "$N;"', b"sUFFIX $N", b'suffix "\t$N"',
    b"suffix ($N)", b"suffix $N $N",
]

BAD_NAMES = [
    b"$T = a,$N", b" $T=a,$N", b"$T=a,$N ", b"$T=a+$T=b,$N", b"$T=,$N", b"$T,$N", b"=a,$N", b",$N", b"$N,",
    b"nosuch=a,$N", b"$T=\\61,$N", b"$T=#61,$N", b'$T="a",$N', b"$T=a;$N", b"$T=a=b,$N", b"$T=\xc3\xa9,$N",
    b"$T=\xff,$N", b"$T=a\tb,$N", b"$T=a/b,$N", b"$T;x=a,$N", b"$T=a,,$N", b"$T=a ,$N", b"$T= a,$N", b"x y=a,$N",
    b"objectClass=a b,$N", b"1.2.3.4=a,$N", b"$T=a\0,$N", b"$T=a\x7f,$N", b"$T=a\n,$N", b"$T=a\r,$N", b" ", b"ex",
    b"$T=a", b"nosuch=a", b"$T=a:b,$N", b"$T=\xc2\xa0,$N", b"$T=a\\2Cb,$N", b"$T=a\\,$N", b"$T=a@b,$N", b"$N;",
    b"$T=o'n,$N", b"$T=a*,$N", b"$T=(a),$N", b"$T=a+nosuch=b,$N", b"$T=a++$T=b,$N", b"+$T=a,$N", b"$T=a+,$N",
    b"$T=a<b,$N", b"$T=a\\zb,$N", b"$T=a\\6,$N", b"$T=\\ff,$N", b"$T=\xc3\\a9,$N", b"$T=\\c3\\a9,$N", b"$T=a\\+$T=b,$N",
    b"$T=\\ ,$N", b"$T= ,$N",
    b"$T=\\#a,$N", b"$T=  #a,$N", b"$T==a,$N", b"$T=a\\20,$N", b"$T=a\\   ,$N", b'$T=a\\"b,$N', b'$T=a"b,$N', b"\\63n=a,$N",
    b"$T=a+$T=b+$T=c,$N", b"$T=1+$T=2,$T=3,$N", b"$T=a,\t$N", b"\t$T=a,$N", b"$N\\", b"$N+$T=a", b"$N\\,$T=a", b"$T=a\\=,$N",
]
NO_UTF8 = [
    b"\xff", b"\xc3", b"a\xc3", b"\xe9", b"\xc0\x80", b"\xed\xa0\x80", b"\xf4\x90\x80\x80", b"\xf8\x88\x80\x80\x80",
    b"\x80", b"\xe2\x82", b"a\xc3 b", b"\xf0\x82\x82\xac", b"\xc1\xbf", b"\xe0\x80\x80", b"\xf5\x80\x80\x80",
    b"\xed\xbf\xbf",
]
NO_BASE64 = [
    b"YQ", b"YQ=", b"!", b"YR==", b"Y Q==", b"YQ==x", b"=", b"YQ==YQ==", b"YWI", b"YWJ=", b"Y===", b"====", b"YQ==\t",
    b"YQ-_", b"YQ== YQ==", b"\xff", b"YWJj=", b"YWJjZ", b"YQ==\0", b"AA==A", b"/w=",
]
# lines that don't belong into a record, by the fault or code that most of them come to
ODD_LINES = {
    17: [
        b"nosuch: a", b"$T;x: a", b"$T : a", b"control: 1.2.3", b"version: 1", b"dn: dc=ex", b"$T;binary:: YQ==",
        b"-: a", b"\t$T: a", b"1.2.3.4.5: a", b"$T\0: a", b"\xff: a", b"$T\r: a", b"3.$T: a"],
    21: [
        b"$T:", b"$T: ", b"$T::", b"$T:: ", b"objectClass:", b"objectClass: a b", b"objectClass: \xc3\xa9",
        b"objectClass: a ", b"objectClass:: IA==", b"objectClass:: /w==", b"objectClass::"]
    + [b"$T: " + text for text in NO_UTF8] + [b"$T:: " + base64.b64encode(text) for text in NO_UTF8],
    "L4": [b"$T:: " + text for text in NO_BASE64],
    "L5": [b"$T:< file:///x", b"cn:<", b"changetype:< a", b"nosuch:< b"],
    "L6": [
        b"foo", b"-", b": a", b":: YQ==", b":<", b"\t", b"- ", b":", b"\xff", b"\0", b"dn", b"changetype", b"dn dc=ex",
        b"\rx"],
    "L12": [
        b"changetype: add", b"ChangeType: delete", b"changetype:", b"CHANGETYPE:: YWRk", b"changetype:: !",
        b"changetype:< a", b"changetype : add", b"changetype;x: add"],
    "many": [
        b"foo", b"$T:: !", b"$T:< x", b"nosuch: a", b"$T:", b"changetype: add", b"$T: \xff", b"-", b"dn: x",
        b"objectClass: x"],
}
# and lines that don't belong at the beginning of one
FIRST_LINES = {
    "L1": [
        b"dn : dc=ex", b"ndn: dc=ex", b"control: 1.1", b"cn: a", b"version: 1", b"\xef\xbb\xbfdn: dc=ex", b"\xef\xbb\xbfversion: 1",
        b"\xff\xfed\0n\0:\0", b"\0d\0n\0:", b"d\0n\0:\0", b"\x1f\x8b\x08:"],
    "L2": [b" ", b" x", b"  ", b" dn: dc=ex", b" -", b" #", b" :", b" cn:< x"],
    "L3": [
        b"version: 2", b"version:", b"version: 1 ", b"version:: MSA=", b"version:1  ", b"version: 001",
        b"version:: IDE=", b"version: 1\0", b"VERSION: x", b"version:: Mg=="],
    "dn": [b"dn:: !", b"dn:: ZGM9ZXg", b"dn:: ZGM9ZXh=", b"dn:< file:///x"],
}
# controls that aren't critical, those that are, and those with a fault
CONTROLS = [
    b"1.2.3", b"1.2.3 false", b"1.2.3 FALSE: v", b"1.2.3: v", b"1.2.3 : v", b"1.2.3:v", b"1.2.3:: YQ==", b"1 False:: YQ== ",
    b"...", b"1.2   ", b"1.2 false   ", b"1.2 :", b"1.2  false  :", b"1.2 false ::", b"1.2::   YQ==  ", b"1.2: : x", b"1.2:\xff",
    b"1.2 false:a\n:b", b"0", b"1.2 : true", b"1.2:true"]
CRITICAL_CONTROLS = [b"1.2.3 true", b"1.2 TRUE: v", b"1.2 True:: YQ==", b"1.2   true : v", b"1.2 true ", b"1.2 true:"]
BAD_CONTROLS = [
    b"1.2.3 maybe", b"", b"x", b"true", b"1.2true", b"1.2 truex", b"1.2 true false", b"1.2 false x", b"1.2,3", b"1.2\ttrue",
    b" true", b"1.2 true:< x", b"1.2:<x", b"1.2 :<", b"1.2:: YQ", b"1.2 true:: !", b"1.2 truex:: !", b"1.2 x:< y", b"cn: x",
    b"1.2 tr\xc3\xbce", b"1.2 1.3", b"1.2 true\r", b"1.2 true\0", b"1.2-3", b": v", b"1.2 \xff"]
# lines that may stand in a change, most of them where others don't
CHANGE_LINES = [
    b"-", b"- ", b"- x", b"--", b"foo", b":", b": a", b"changetype: add", b"changetype: delete", b"changetype: rename",
    b"changetype:", b"changetype:: IGFkZA==", b"changetype:: YWRkIA==", b"changetype: modify x", b"changetype:< add",
    b"ChangeType: MODRDN", b"changetype : add", b"changetype: moddn\0", b"control: 1.2", b"control: 1.2 x", b"control : 1.2",
    b"newrdn: $T=a", b"newrdn:: !", b"newrdn:< x", b"deleteoldrdn: 0", b"deleteoldrdn: 2", b"deleteoldrdn: 1 ",
    b"deleteoldrdn:", b"deleteoldrdn: 01", b"deleteoldrdn: true", b"deleteoldrdn:: MSA=", b"deleteoldrdn:: IDE=",
    b"newsuperior:", b"newsuperior: $N", b"newsuperior:: !", b"add: $T", b"delete: $T", b"replace: $T", b"Delete: objectClass",
    b"increment: $T", b"add:", b"add:  ", b"delete:", b"add: $T;x", b"add: nosuch", b"replace:: !", b"add:< $T", b"add : $T",
    b"$T: a", b"$T:: !", b"$T:< x", b"$T : a", b"objectClass: x", b"nosuch: a", b"dn: $N", b"version: 1",
]
# RDNs, most of them not good for a rename
BAD_RDNS = [
    b"", b" ", b"$T=a,$T=b", b"$T=a,$N", b"$N", b"$T", b"=a", b"nosuch=a", b"1.2.3.4=a", b"$T=\\zz", b"$T=a+$T=b",
    b"$T=a+nosuch=b", b"nosuch=a+$T=", b"$T=#61", b'$T="a"', b'$T=a"', b"$T=a;", b"$T=\xff", b"$T=\\ff", b"$T=\xc3\xa9",
    b"$T=", b"$T=a,", b",$T=a", b"$T=a+", b"+$T=a", b"objectClass=a b", b"objectClass=", b"objectClass=person", b"$T;x=a",
    b" $T = a ", b"$T=\\ ", b"$T=a\0", b"$T=a b+objectClass=x", b"$T=1", b"$T=TRUE", b"$T=a\\", b"x y=a", b"\t$T=a",
]
# names in a block that no type has
NO_TYPES = [b"nosuch", b"$T;x", b"$T;binary", b"", b"1.2.3.4.5", b"$T x", b" $T", b"\xff", b"dn", b"changetype", b"$T\0"]
VERSIONS = [b"version: 1", b"version:1", b"VERSION:: MQ==", b"version:  1"]
# values that are equal, or are alike and not equal
PAIRS = [
    ("É", "é"), ("ß", "SS"), ("a\tb", "a b"), ("\u00a0a", "a"), ("  ", " "), ("K", "\u212a"), ("e\u0301", "\u00e9"),
    ("a\n", "a"), ("a ", "A"), ("x\u3000", "x"), ("a-b", "ab"), ("7", "07"), ("\uff21", "A"),
]
STRANGE = [text.encode() for text in (
    "é", "ÉCOLE", "日本", "\U0001F600x", "\0", "a\0b", "\u00a0", "\u2003 x", "\ufeff", "\ud7ff", "\ue000",
    "\U0010ffff", "\u0800", "\u0080", "\uffff", " a", "a ", ":a", "<a", ": a", "#a", " ", "  ", "-", ":", "<", "#", "=", "a:b",
    "\t", "\ta", "a\nb", "a\r", "\r\n", "\ra", "a\x7f", "\x01\x1f", "\n", "a\n b")]
TOKENS = [
    b"\n", b"\r\n", b"\r", b" ", b"\n ", b"\n\n", b"#", b"\n#", b":", b"::", b":<", b"-", b"=", b",", b"+", b"\0",
    b"\xff", b"\xc3", b"\xc3\xa9", b"\t", b";", b"\\", b'"', b"(", b")", b"'", b"$", b"version: 1\n", b"dn: ",
    b"\ndn: ", b"changetype: add\n", b"objectClass: ", b"a", b"A", b"  ", b"==", b"\n \n", b"{64}", b"\x0b",
    b"\xef\xbb\xbf",
]
TINY = [
    b"", b"\n", b"\r\n", b"\r", b"#", b" ", b"\n\n \n", b"version: 1", b"version: 1\n\n", b"#x\n y\n\n", b"\0",
    b"\xef\xbb\xbfdn: x",
]
# texts of names that are alike, some of them equal; $A and $B stand for two types, each time the same ones
ALIKE_NAMES = [
    [b"$A=a", b"$A = a", b"$A=\\61", b"$A=A", b"$A= a ", b"$A=\\ a\\ ", b"$B=a"],
    [b"$A=a b", b"$A=a  b", b"$A=a\\ b", b"$A=ab", b"$A=a\\20B", b"$A=a-b"],
    [b"$A=a,$B=b", b"$B=b,$A=a", b"$A=a+$B=b", b"$B=b+$A=a", b"$A=a\\,$B=b", b"$A=a\\+$B=b", b"$A=a , $B=b",
     b"$A=a\\\\,$B=b"],
    [b"$A=1", b"$A=01", b"$A=\\31", b"$A=-1", b"$A=1 ", b"$A=1-", b"$A=1 1", b"$A=11"],
    [b"$A=\\ ", b"$A=\\20\\20", b"$A=", b"$A=-", b"", b" "],
    [b"$A=\\c3\\a9", b"$A=\xc3\xa9", b"$A=\\C3\\A9", b"$A=\xc3\x89", b"$A=\\c3", b"$A=\xc3\\a9"],
    [b"$A=\\#a", b"$A=\\23a", b"$A=\\23A", b"$A=a#", b"$A=a\\#"],
    [b"$A=a,$N", b"$A=a", b"$N", b"$A=a,$N,$N", b"$A=A,$N", b"$A=a, $N", b"$N,$A=a"],
    [b"$A=TRUE+$B=1", b"$B=1 + $A=TRUE", b"$A=true+$B=1", b"$A=TRUE,$B=1"],
]
# values of all kinds, some of them equal under some rules, and those that can stand in a name
VALUES = [
    b"", b" ", b"a", b"A", b"a b", b"A  b", b"ab", b"a-b", b"1", b"1 2", b"12", b"-1", b"07", b"TRUE", b"\xc3\xa9", b"\xff",
    b"a ", b"1-2 3", b"1-23"]
NAMING = [b"a", b"A", b"A b", b"7", b"07", b"-7", b"TRUE", b"true", b"1 2", b"12", b"1-2", b"a-b", b"AB"]
