#!/usr/bin/env python3
"""Worked examples for the second reading of filters: examples.py. Prints each that it answers otherwise; the status is 0 where there is
none, else 1.

The answers are worked out by hand from RFC 4515 (the text), RFC 4511, 4.5.1.7 (the three truths), RFC 4517, 4.2 (the rules) and
docs/DECISIONS.md, "Filters and search". So what the second reading says of other filters rests on more than itself.
"""
import sys

import filters
import model

STRING = "1.3.6.1.4.1.1466.115.121.1."
CONF = f"""suffix "dc=ex"
attributetype ( 2.5.4.41 NAME 'name' EQUALITY caseIgnoreMatch SUBSTR caseIgnoreSubstringsMatch SYNTAX {STRING}15{{32768}} )
attributetype ( 2.5.4.3 NAME ( 'cn' 'commonName' ) SUP name )
attributetype ( 2.5.4.4 NAME ( 'sn' 'surname' ) SUP name )
attributetype ( 0.9.2342.19200300.100.1.25 NAME 'dc' EQUALITY caseIgnoreIA5Match SUBSTR caseIgnoreIA5SubstringsMatch SYNTAX {STRING}26 )
attributetype ( 1.3.6.1.1.1.1.0 NAME 'uidNumber' EQUALITY integerMatch ORDERING integerOrderingMatch SYNTAX {STRING}27 SINGLE-VALUE )
attributetype ( 2.5.4.13 NAME 'description' EQUALITY caseIgnoreMatch SUBSTR caseIgnoreSubstringsMatch SYNTAX {STRING}15 )
attributetype ( 2.5.4.35 NAME 'userPassword' EQUALITY octetStringMatch SYNTAX {STRING}40 )
attributetype ( 2.5.18.1 NAME 'createTimestamp' SYNTAX {STRING}24 SINGLE-VALUE NO-USER-MODIFICATION USAGE directoryOperation )
""".encode()
DATA = b"""dn: dc=ex
objectClass: domain

dn: cn=aba,dc=ex
objectClass: person

dn: cn=abba,dc=ex
objectClass: person

dn: cn=abc bcd,dc=ex
objectClass: person

dn: cn=Bob,dc=ex
objectClass: person
uidNumber: 7
"""
ALL = "ex aba abba abcbcd Bob"

# a filter -> the entries for which it is True, each by its value without case and spaces
ANSWERS = {
    "(!(uidNumber=abc))": "", "(|(uidNumber=abc)(cn=*))": "aba abba abcbcd Bob", "(cn=*abcd*)": "", "(!(cn=*abcd*))": ALL,
    "(cn=ab*ba)": "abba", "(cn=*ob*)": "Bob", "(cn=BOB)": "Bob", "(!(uidNumber=7))": "ex aba abba abcbcd", "(uidNumber=07)": "",
    "cn=Bob": "Bob", "(&)": ALL, "(|)": "", "(cn=a**a)": "aba abba", "(cn=a\\2a)": "", "(uidNumber>=5)": "Bob",
    "(uidNumber<=6)": "", "(cn>=a)": "", "(!(cn>=a))": "", "(name=bob)": "Bob", "(!(cn:caseExactMatch:=Bob))": "",
    "(description=)": "", "(cn=a*)": "aba abba abcbcd", "(|(cn=aba)(uidNumber=7))": "aba Bob", "(&(cn=*)(uidNumber=7))": "Bob",
    "(!(cn=*))": "ex", "(!(&(cn=*ab*)(uidNumber=abc)))": "ex Bob", "(&(cn=aba) )": "aba",
    "cn=Bob ": "Bob", "uidNumber=7 ": "", "!(uidNumber=7 )": "", "!(uidNumber=7) ": "ex aba abba abcbcd", "(cn=**)": "aba abba abcbcd Bob",
    "(dc=)": "", "(!(dc=))": ALL, "(!(description=))": "", "(no=*)": "", "(!(no=*))": "", "(!(cn;x=*))": "", "(2.5.4.3=bob)": "Bob",
    "(cn=\\20*)": "aba abba abcbcd Bob", "(!(cn=\\c3*a))": "", "(cn=\\62\\4fb)": "Bob", "(cn~=bOB)": "Bob", "(uidNumber<=7)": "Bob",
    "(uidNumber>=-1)": "Bob", "(uidNumber>=007)": "", "(!(createTimestamp=1*))": "", "(createTimestamp=*)": "",
    "(!(createTimestamp=*))": ALL, "(!(userPassword=*a*))": "", "(cn=abc* *bcd)": "abcbcd", "(cn=abc  bcd)": "abcbcd", "(cn=*c  b*)": "abcbcd",
}

# a text -> where the reading of a filter ends
FAULTS = {
    "(cn=a": 5, "(cn=a))": 6, "((": 1, "(a=*b(": 5, "()": 1, "(!)": 2, "(&)x": 3, "(:=": 2, "(a:b:c:d": 7, "": 0, "cn": 2, "cn=a)": 4,
    "(cn=a\\2)": 7, "( cn=a)": 1, "   ": 3, "(a~=*)": 4, "(a>b)": 3, "(a:=*)": 4, "(a=\\g0)": 4, "(a=b)(a=b)": 5, "!(a=b)x": 6, "(!(a=b)(": 7,
    "(a": 2, "(a:": 3, "(a::=)": 3, "(:a)": 3, "(=a)": 1, "(a=\0)": 3, "&(a=b))": 6, "(é=a)": 1, "x" + 510 * "(": 1,
    "(& (a=b) | (a=b))": 9,
}
DEEP = "deeper than 512"
DEPTHS = {
    513 * "(!": DEEP, 512 * "(!": "fault at 1024", 511 * "(!" + "(cn=*)" + 511 * ")": None, 512 * "(!" + "(cn=*)": DEEP,
    "x" + 511 * "(": "fault at 1", "x" + 512 * "(": DEEP, 511 * "!(" + "a=b" + 511 * ")": None, 512 * "!(": DEEP, ")" + 513 * "(": DEEP,
    ")))" + 512 * "(": "fault at 0", "((" + 9 * ")" + 519 * "(": "fault at 1", 100000 * "(": DEEP,
}


def found(directory, text):
    steps = filters.prepared(directory.conf, filters.read_filter(text.encode()))
    paths = directory.matching(model.SCOPES[b"sub"], (), steps)
    return " ".join((path[-1][0][1] if path else b"ex").decode().replace(" ", "") for path in paths)


def fault_of(text):
    try:
        filters.read_filter(text.encode())
    except filters.Fault as fault:
        return str(fault)
    return None


def main():
    directory = model.load(CONF, DATA, "")
    wrong = [(text, found(directory, text), names) for text, names in ANSWERS.items() if found(directory, text) != names.lower()]
    faults = {text: f"fault at {place}" for text, place in FAULTS.items()}
    wrong += [(text, fault_of(text), fault) for text, fault in {**faults, **DEPTHS}.items() if fault_of(text) != fault]
    for text, answer, wanted in wrong:
        print(f"{text[:60]!r} is {answer!r} and not {wanted!r}")
    print(f"{len(ANSWERS) + len(faults) + len(DEPTHS)} examples of filters, {len(wrong)} with a difference")
    return 1 if wrong else 0


sys.exit(main())
