/* Decks at the edges of document 01's numbers, each with the number and card that the document gives it. */
#include "decks.h"
#include "oracle.h"

#include <stdio.h>
#include <string.h>

/* Short decks in a notation of their own: lines end at `|`. A line that begins with `!` is meant as it stands behind it; in another one the
   part before `:` is the label and the rest the statement from column 10 on. `^T`, `^R`, `^D`, `^N`, `^H` are the bytes 9, 13, 127, 0 and
   200. */
static const struct { const char *name; int number; uint32_t card; const char *lines; } short_edges[] = {
    {"the least deck", 0, 0, "PROGRAM P|END|"},
    {"no byte 10 at the end", 0, 0, "PROGRAM P|END"},
    {"an empty deck", 4, 0, ""},
    {"one byte 10", 4, 0, "!|"},
    {"comments only", 4, 0, "!* A|!*|"},
    {"END alone", 4, 1, "END|"},

    {"tab", 3, 2, "PROGRAM P|A=^T|END|"},
    {"byte 13 at a line's end", 3, 1, "PROGRAM P^R|END^R|"},
    {"byte 127", 3, 2, "PROGRAM P|A=\"^D\"|END|"},
    {"byte 0", 3, 2, "PROGRAM P|A=\"^N\"|END|"},
    {"byte 200", 3, 2, "PROGRAM P|A=\"^H\"|END|"},
    {"byte 126 in a literal", 0, 0, "PROGRAM P|A=\"~\"|END|"},
    {"byte 126 outside a literal", 5, 2, "PROGRAM P|A=~|END|"},
    {"tab in a comment", 3, 2, "PROGRAM P|!*^T|END|"},
    {"tab in a comment in column 9", 3, 2, "PROGRAM P|!*       ^T|END|"},
    {"tab alone on a line", 3, 2, "PROGRAM P|!^T|END|"},
    {"tab in a label", 3, 2, "PROGRAM P|!A^T       A=|END|"},
    {"tab in column 9", 3, 2, "PROGRAM P|!        ^TA=|!         B|END|"},
    {"tab in column 73", 3, 2, "PROGRAM P|!         A=                                                             ^T|END|"},
    {"tab in column 73 of a blank line", 3, 2,
     "PROGRAM P|!                                                                        ^T|END|"},
    {"tab in an ignored label", 3, 2, "PROGRAM P|!        +A=|!^T        B|END|"},
    {"tab in the second line of the first statement", 3, 1, "!        +PROGRAM|!         P^T|END|"},
    {"tab in a comment behind END", 3, 3, "PROGRAM P|END|!*^T|"},
    {"tab in a statement behind END", 3, 3, "PROGRAM P|END|A=^T|"},
    {"tab in the first statement, no PROGRAM", 3, 1, "A=^T|END|"},
    {"a comment of bad bytes before a bad statement", 3, 2, "PROGRAM P|!*^T|A|END|"},
    {"a bad statement before a comment of bad bytes", 5, 2, "PROGRAM P|A|!*^T|END|"},
    {"/ in column 9", 3, 2, "PROGRAM P|!        /A=|END|"},
    {"/ in column 9 of a joined line", 3, 2, "PROGRAM P|!        +A=|!        /B|END|"},
    {"/ in column 9 of a comment", 0, 0, "PROGRAM P|!*       /A|END|"},
    {"a comment with column 9 joins nothing", 0, 0, "PROGRAM P|!*       +A|END|"},
    {"/ in column 9 alone", 3, 2, "PROGRAM P|!        /|END|"},
    {"a joined comment", 3, 2, "PROGRAM P|!        +A=|!*|END|"},
    {"a joined blank line", 3, 2, "PROGRAM P|!        +A=|!|END|"},
    {"a joined line of blanks and columns 73 to 80", 3, 2,
     "PROGRAM P|!        +A=|!                                                                        SEQ|END|"},
    {"a joined line is missing", 3, 2, "PROGRAM P|!        +END|"},
    {"a joined line is missing, no byte 10", 3, 2, "PROGRAM P|!        +END"},
    {"a joined line with a label alone", 0, 0, "PROGRAM P|!        +A=|!1+?|END|"},
    {"a joined line with column 9 alone", 0, 0, "PROGRAM P|!        +A=|!        +|!         \"B\"|END|"},
    {"column 9 alone begins a statement", 0, 0, "PROGRAM P|!        +|!         A=|END|"},
    {"column 9 alone, then a label alone", 5, 2, "PROGRAM P|!        +|!LABEL|END|"},
    {"a joined label doesn't count", 0, 0, "PROGRAM P|!L       +GO|!L        TO L|END|"},
    {"a literal over a short joined line", 0, 0, "PROGRAM P|!        +A=\"B|!         C\"|END|"},
    {"three quotes over a join", 0, 0, "PROGRAM P|!        +A=\"|!         \"\"|END|"},
    {"* in column 2 is no comment", 5, 2, "PROGRAM P|! *|END|"},
    {"blank lines and comments anywhere", 0, 0, "!|!* A|PROGRAM P|!|!*|!            |END|!|!*END|! |"},

    {"PROGRAM isn't first", 4, 1, "A=|PROGRAM P|END|"},
    {"NUMBER before PROGRAM", 4, 1, "NUMBER N|PROGRAM P|END|"},
    {"the first statement has no form", 4, 1, "1|END|"},
    {"the first statement is a label alone", 4, 1, "P:|PROGRAM P|END|"},
    {"PROGRAM is set as a string first", 4, 1, "PROGRAM=Q|END|"},
    {"PROGRAM twice", 4, 2, "PROGRAM P|PROGRAM Q|END|"},
    {"PROGRAM twice with the same name", 4, 2, "PROGRAM P|PROGRAM P|END|"},
    {"a second PROGRAM of bad form", 4, 2, "PROGRAM P|PROGRAM 1|END|"},
    {"PROGRAM set as a string later", 0, 0, "PROGRAM P|PROGRAM=\"A\"|END|"},
    {"nine letters are no name before =", 4, 2, "PROGRAM P|PROGRAMXY=|END|"},
    {"END missing", 4, 0, "PROGRAM P|A=|"},
    {"END set as a string", 4, 0, "PROGRAM P|END=|"},
    {"END missing in an open routine", 4, 0, "PROGRAM P|ROUTINE R|A=|"},
    {"END missing and a label undefined", 4, 0, "PROGRAM P|GOTO X|"},
    {"a statement behind END", 4, 3, "PROGRAM P|END|A=|"},
    {"a bad statement behind END", 4, 3, "PROGRAM P|END|?|"},
    {"a second END", 4, 3, "PROGRAM P|END|END|"},
    {"a label behind END", 4, 3, "PROGRAM P|END|L:|"},
    {"PROGRAM behind END", 4, 3, "PROGRAM P|END|PROGRAM P|"},

    {"PROGRAM with no name", 5, 1, "PROGRAM|END|"},
    {"PROGRAM 1", 5, 1, "PROGRAM 1|END|"},
    {"PROGRAM with two names", 5, 1, "PROGRAM P,Q|END|"},
    {"a program's name of 8", 0, 0, "PROGRAM ABCDEFG8|END|"},
    {"a program's name of 9", 5, 1, "PROGRAM ABCDEFG89|END|"},
    {"END with more", 5, 2, "PROGRAM P|END 1|"},
    {"END with a literal not whole", 5, 2, "PROGRAM P|END \"|"},
    {"a label of 8", 0, 0, "PROGRAM P|ABCDEFG8:GOTO ABCDEFG8|END|"},
    {"a label that begins with a digit", 5, 2, "PROGRAM P|1A:A=|END|"},
    {"a label with a mark", 5, 2, "PROGRAM P|A$:A=|END|"},
    {"a label in small letters", 5, 2, "PROGRAM P|a:A=|END|"},
    {"a label with blanks inside", 0, 0, "PROGRAM P|! L 1     GOTO L1|END|"},
    {"a label alone", 5, 2, "PROGRAM P|L:|END|"},
    {"a label on PROGRAM", 0, 0, "L:PROGRAM P|GOTO L|END|"},
    {"a label on END", 0, 0, "PROGRAM P|GOTO L|L:END|"},
    {"a string of 8", 0, 0, "PROGRAM P|ABCDEFG8=|END|"},
    {"a string of 9", 5, 2, "PROGRAM P|ABCDEFG89=|END|"},
    {"a string of 9 printed", 5, 2, "PROGRAM P|PRINT ABCDEFG89|END|"},
    {"a string that begins with a digit", 5, 2, "PROGRAM P|1A=|END|"},
    {"a constant at its limit", 0, 0, "PROGRAM P|NUMBER N|N=8388607|END|"},
    {"a constant past its limit", 5, 3, "PROGRAM P|NUMBER N|N=8388608|END|"},
    {"a negative constant at its limit", 0, 0, "PROGRAM P|IF(-8388607=+8388607)/L|L:END|"},
    {"a negative constant past its limit", 5, 2, "PROGRAM P|IF(-8388608=1)/L|L:END|"},
    {"a length at its limit", 0, 0, "PROGRAM P|A$8388607=|END|"},
    {"a length past its limit", 5, 2, "PROGRAM P|A$8388608=|END|"},
    {"a length of 30 digits", 5, 2, "PROGRAM P|A$100000000000000000000000000000=|END|"},
    {"a filler's length past its limit", 5, 2, "PROGRAM P|SCAN A[(B$8388608)]|END|"},
    {"a width past its limit", 5, 3, "PROGRAM P|NUMBER N|PRINT STRING(-8388608,N)|END|"},
    {"a width at its limit", 0, 0, "PROGRAM P|NUMBER N|PRINT STRING(-8388607,N)|END|"},
    {"leading zeros", 0, 0, "PROGRAM P|NUMBER N|N=000000000000000008388607|END|"},
    {"leading zeros past the limit", 5, 3, "PROGRAM P|NUMBER N|N=0008388608|END|"},
    {"-0", 0, 0, "PROGRAM P|IF(-0=+0)/L|L:END|"},
    {"a constant with a letter", 5, 3, "PROGRAM P|NUMBER N|N=1A|END|"},
    {"a constant with a point", 5, 3, "PROGRAM P|NUMBER N|N=1.5|END|"},
    {"a length below zero", 5, 2, "PROGRAM P|A=B$-1|END|"},
    {"no length", 5, 2, "PROGRAM P|A$=|END|"},
    {"two lengths", 5, 2, "PROGRAM P|A$1$1=|END|"},
    {"an open literal", 5, 2, "PROGRAM P|A=\"B|END|"},
    {"an open literal over a join", 5, 2, "PROGRAM P|!        +A=\"B|!         C|END|"},
    {"an empty literal", 5, 2, "PROGRAM P|A=\"\"|END|"},
    {"the literal of one quote", 0, 0, "PROGRAM P|A=\"\"\"|END|"},
    {"four quotes", 5, 2, "PROGRAM P|A=\"\"\"\"|END|"},
    {"two quotes, a blank, a quote", 5, 2, "PROGRAM P|A=\"\" \"|END|"},
    {"a literal of one blank", 0, 0, "PROGRAM P|A=\" \"|END|"},
    {"two literals with no comma", 5, 2, "PROGRAM P|A=\"B\"\"C\"|END|"},
    {"one quote between two", 0, 0, "PROGRAM P|A=\"B\",\"\"\",\"C\"|END|"},
    {"nothing to print", 0, 0, "PROGRAM P|PRINT|WRITE|PRINT(61)|WRITE(61)|END|"},
    {"an empty pattern and replacement", 0, 0, "PROGRAM P|SCAN A[]|SCAN A[]=|SCAN A[]=/L|L:BACKSCAN A[]|END|"},
    {"a comma first", 5, 2, "PROGRAM P|A=,B|END|"},
    {"a comma last", 5, 2, "PROGRAM P|A=B,|END|"},
    {"two commas", 5, 2, "PROGRAM P|A=B,,C|END|"},
    {"a pattern's comma last", 5, 2, "PROGRAM P|SCAN A[B,]|END|"},
    {"a filler in an expression", 5, 2, "PROGRAM P|A=(B)|END|"},
    {"a filler in a replacement", 5, 2, "PROGRAM P|SCAN A[]=(B)|END|"},
    {"a literal as filler", 5, 2, "PROGRAM P|SCAN A[(\"B\")]|END|"},
    {"a literal searched", 5, 2, "PROGRAM P|SCAN \"A\"[B]|END|"},
    {"nothing searched", 5, 2, "PROGRAM P|SCAN [B]|END|"},
    {"no pattern", 5, 2, "PROGRAM P|SCAN A|END|"},
    {"a pattern not closed", 5, 2, "PROGRAM P|SCAN A[B|END|"},
    {"more behind a pattern", 5, 2, "PROGRAM P|SCAN A[B]C|END|"},
    {"a replacement twice", 5, 2, "PROGRAM P|SCAN A[B]=C=D|END|"},
    {"/ alone", 5, 2, "PROGRAM P|READ A/|END|"},
    {"/, alone", 5, 2, "PROGRAM P|READ A/,|END|"},
    {"/s, with nothing behind", 5, 2, "PROGRAM P|READ A/L,|L:END|"},
    {"a branch of three", 5, 2, "PROGRAM P|READ A/L,L,L|L:END|"},
    {"/s,f", 0, 0, "PROGRAM P|READ A/L,L|L:END|"},
    {"/,f", 0, 0, "PROGRAM P|READ A/,L|L:END|"},
    {"a branch on PRINT", 5, 2, "PROGRAM P|PRINT A/L|L:END|"},
    {"a branch on a replacement", 5, 2, "PROGRAM P|A=B/L|L:END|"},
    {"IF without a branch", 5, 2, "PROGRAM P|IF(1=1)|END|"},
    {"IF without parentheses", 5, 2, "PROGRAM P|IF 1=1/L|L:END|"},
    {"IF with two pairs of parentheses", 5, 2, "PROGRAM P|IF((1=1))/L|L:END|"},
    {"IF of one operand", 5, 2, "PROGRAM P|IF(1)/L|L:END|"},
    {"IF of an expression", 5, 2, "PROGRAM P|IF(1+1=2)/L|L:END|"},
    {"IF with all signs", 0, 0, "PROGRAM P|IF(1=1)/L|IF(1<>1)/L|IF(1<1)/L|IF(1>1)/L|IF(1<=1)/L|IF(1>=1)/L|L:END|"},
    {"IF with blanks inside a sign", 0, 0, "PROGRAM P|IF(1< >1)/L|IF(1> =1)/L|L:END|"},
    {"IF with =<", 5, 2, "PROGRAM P|IF(1=<1)/L|L:END|"},
    {"IF with ><", 5, 2, "PROGRAM P|IF(1><1)/L|L:END|"},
    {"IF with a sign before a number", 5, 3, "PROGRAM P|NUMBER N|IF(-N=1)/L|L:END|"},
    {"IF with two signs", 5, 2, "PROGRAM P|IF(--1=1)/L|L:END|"},
    {"IF of a literal", 5, 2, "PROGRAM P|IF(\"1\"=1)/L|L:END|"},
    {"NULL of a substring", 5, 2, "PROGRAM P|IF(NULL(A$1))/L|L:END|"},
    {"LENGTH of a substring", 5, 2, "PROGRAM P|IF(LENGTH(A$1)=1)/L|L:END|"},
    {"NUMERIC and NUMBER of substrings", 0, 0, "PROGRAM P|IF(NUMERIC(A$1))/L|IF(NUMBER(A$1)=LENGTH(A))/,L|L:END|"},
    {"NULL and NUMERIC as numbers", 0, 0, "PROGRAM P|NUMBER NULL,NUMERIC|IF(NULL=NUMERIC)/L|L:END|"},
    {"LENGTH, NUMBER as numbers", 0, 0, "PROGRAM P|NUMBER LENGTH,NUMBER|LENGTH=NUMBER+LENGTH|NUMBER=1|END|"},
    {"STRING as a string", 0, 0, "PROGRAM P|STRING=STRING,STRING$1|SCAN STRING[(A),STRING]|END|"},
    {"STRING as a filler with a call", 5, 3, "PROGRAM P|NUMBER N|SCAN A[(STRING(N))]|END|"},
    {"STRING of a constant", 5, 2, "PROGRAM P|PRINT STRING(1)|END|"},
    {"STRING of width and constant", 5, 3, "PROGRAM P|NUMBER N|PRINT STRING(N,1)|END|"},
    {"STRING with a signed number as width", 5, 3, "PROGRAM P|NUMBER N|PRINT STRING(-N,N)|END|"},
    {"STRING with signed constants as width", 0, 0, "PROGRAM P|NUMBER N|PRINT STRING(-3,N),STRING(+3,N),STRING(3,N),STRING(N,N)|END|"},
    {"STRING of nothing", 5, 3, "PROGRAM P|NUMBER N|PRINT STRING()|END|"},
    {"STRING of three", 5, 3, "PROGRAM P|NUMBER N|PRINT STRING(N,N,N)|END|"},
    {"a sign behind an operator", 5, 3, "PROGRAM P|NUMBER N|N=2*-3|END|"},
    {"a sign behind a sign", 5, 3, "PROGRAM P|NUMBER N|N=--3|END|"},
    {"signs that begin expressions", 0, 0, "PROGRAM P|NUMBER N|N=-3*(+2-(-1))|N=+N|END|"},
    {"an operator last", 5, 3, "PROGRAM P|NUMBER N|N=1+|END|"},
    {"an operator first", 5, 3, "PROGRAM P|NUMBER N|N=*1|END|"},
    {"parentheses with nothing", 5, 3, "PROGRAM P|NUMBER N|N=()|END|"},
    {"parentheses not closed", 5, 3, "PROGRAM P|NUMBER N|N=(1|END|"},
    {"parentheses not opened", 5, 3, "PROGRAM P|NUMBER N|N=1)|END|"},
    {"16 parentheses", 0, 0, "PROGRAM P|NUMBER N|N=((((((((((((((((1))))))))))))))))|END|"},
    {"17 parentheses", 5, 3, "PROGRAM P|NUMBER N|N=(((((((((((((((((1)))))))))))))))))|END|"},
    {"16 parentheses, then 16 more", 0, 0,
     "PROGRAM P|NUMBER N|!        +N=((((((((((((((((1))))))))))))))))+|!         ((((((((((((((((1))))))))))))))))|END|"},
    {"16 parentheses around LENGTH and NUMBER", 0, 0, "PROGRAM P|NUMBER N|N=((((((((((((((((LENGTH(A)+NUMBER(B)))))))))))))))))|END|"},
    {"a number set to nothing", 5, 3, "PROGRAM P|NUMBER N|N=|END|"},
    {"a number set to a literal", 5, 3, "PROGRAM P|NUMBER N|N=\"A\"|END|"},
    {"a number set to a row", 5, 3, "PROGRAM P|NUMBER N|N=1,2|END|"},
    {"an undeclared number set", 5, 2, "PROGRAM P|N=N+1|END|"},
    {"an undeclared number set to a constant", 5, 2, "PROGRAM P|N=1|END|"},
    {"NUMBER with nothing", 5, 2, "PROGRAM P|NUMBER|END|"},
    {"NUMBER with a comma last", 5, 2, "PROGRAM P|NUMBER N,|END|"},
    {"NUMBER with a name of 9", 5, 2, "PROGRAM P|NUMBER ABCDEFG89|END|"},
    {"NUMBER with a name of 8", 0, 0, "PROGRAM P|NUMBER ABCDEFG8|END|"},
    {"READ with (60)", 0, 0, "PROGRAM P|READ( 6 0 )A$3|END|"},
    {"READ with (61)", 5, 2, "PROGRAM P|READ(61)A|END|"},
    {"READ with (060)", 5, 2, "PROGRAM P|READ(060)A|END|"},
    {"READ with nothing", 5, 2, "PROGRAM P|READ(60)|END|"},
    {"READ of two", 5, 2, "PROGRAM P|READ A,B|END|"},
    {"READ of a literal", 5, 2, "PROGRAM P|READ \"A\"|END|"},
    {"WRITE with (60)", 5, 2, "PROGRAM P|WRITE(60)A|END|"},
    {"PRINT with (61)", 0, 0, "PROGRAM P|PRINT(61)\"A\"|END|"},
    {"PRINT with (61) twice", 5, 2, "PROGRAM P|PRINT(61)(61)|END|"},
    {"GOTO with nothing", 5, 2, "PROGRAM P|GOTO|END|"},
    {"GOTO of two", 5, 2, "PROGRAM P|L:GOTO L,L|END|"},
    {"GO TO with blanks", 0, 0, "PROGRAM P|L:G O T O L|END|"},
    {"EXIT with more", 5, 2, "PROGRAM P|EXIT NOW|END|"},
    {"ROUTINE with nothing", 5, 2, "PROGRAM P|ROUTINE|ENDROUTINE|END|"},
    {"ENDROUTINE with a name", 5, 3, "PROGRAM P|ROUTINE R|ENDROUTINE R|END|"},
    {"RETURN with a name", 5, 3, "PROGRAM P|ROUTINE R|RETURN R|ENDROUTINE|END|"},
    {"EXECUTE with nothing", 5, 2, "PROGRAM P|EXECUTE|END|"},
    {"REWIND", 5, 2, "PROGRAM P|REWIND 60|END|"},
    {"ENDFILE", 5, 2, "PROGRAM P|ENDFILE 61|END|"},
    {"a name alone", 5, 2, "PROGRAM P|A|END|"},
    {"small letters", 5, 2, "PROGRAM P|print A|END|"},
    {"keywords set as strings", 0, 0, "PROGRAM P|READ=|IF=|GOTO=|SCAN$3=|ENDROUTI=|EXIT=|READ A=\"X\"|END|"},
    {"5 before 6 to 10", 5, 3, "PROGRAM P|NUMBER N|N$1=N,U$V,(A)|END|"},

    {"a string has the program's name", 6, 2, "PROGRAM P|P=|END|"},
    {"a label has the program's name", 6, 2, "PROGRAM P|P:A=|END|"},
    {"a label has its own program's name", 6, 1, "P:PROGRAM P|END|"},
    {"a number has the program's name", 6, 2, "PROGRAM P|NUMBER P|END|"},
    {"a routine has the program's name", 6, 2, "PROGRAM P|ROUTINE P|ENDROUTINE|END|"},
    {"GOTO the program's name", 6, 2, "PROGRAM P|GOTO P|END|"},
    {"EXECUTE the program's name", 6, 2, "PROGRAM P|EXECUTE P|END|"},
    {"a number declared twice", 6, 3, "PROGRAM P|NUMBER N|NUMBER N|END|"},
    {"a number declared twice at once", 6, 2, "PROGRAM P|NUMBER N,N|END|"},
    {"a label declared twice", 6, 3, "PROGRAM P|L:A=|L:A=|END|"},
    {"a routine declared twice", 6, 4, "PROGRAM P|ROUTINE R|ENDROUTINE|ROUTINE R|ENDROUTINE|END|"},
    {"a number printed", 6, 3, "PROGRAM P|NUMBER N|PRINT N|END|"},
    {"a number's beginning set", 6, 3, "PROGRAM P|NUMBER N|N$3=\"A\"|END|"},
    {"a number read", 6, 3, "PROGRAM P|NUMBER N|READ N|END|"},
    {"LENGTH of a number", 6, 3, "PROGRAM P|NUMBER N|N=LENGTH(N)|END|"},
    {"a number as filler", 6, 3, "PROGRAM P|NUMBER N|SCAN A[(N)]|END|"},
    {"a string as number", 6, 4, "PROGRAM P|A=|NUMBER N|N=A|END|"},
    {"a string as length", 6, 3, "PROGRAM P|A=|B=C$A|END|"},
    {"a string declared as number later", 6, 3, "PROGRAM P|A=|NUMBER A|END|"},
    {"a string as its own length", 6, 2, "PROGRAM P|A=A$A|END|"},
    {"a string as STRING's number", 6, 2, "PROGRAM P|A=STRING(A)|END|"},
    {"a label used, then a string", 6, 3, "PROGRAM P|GOTO X|X=|X:END|"},
    {"a label used as number", 6, 4, "PROGRAM P|NUMBER N|L:A=|N=L|END|"},
    {"a label and a string in one statement", 6, 2, "PROGRAM P|A:A=|END|"},
    {"a branch and a string in one statement", 6, 2, "PROGRAM P|READ A/A|END|"},
    {"a label has its routine's name", 6, 2, "PROGRAM P|R:ROUTINE R|ENDROUTINE|END|"},
    {"a routine used as label", 6, 4, "PROGRAM P|ROUTINE R|ENDROUTINE|GOTO R|END|"},
    {"a routine used before, then a label", 6, 3, "PROGRAM P|EXECUTE R|R:A=|END|"},
    {"a label and a number in NUMBER", 6, 2, "PROGRAM P|N:NUMBER N|END|"},
    {"6 before 7", 6, 2, "PROGRAM P|A=P,B$U|END|"},
    {"6 before 8", 6, 2, "PROGRAM P|SCAN A[(A),P]|END|"},
    {"6 before 9", 6, 3, "PROGRAM P|L:A=|L:RETURN|END|"},

    {"an undeclared factor", 7, 3, "PROGRAM P|NUMBER N|N=U|END|"},
    {"an undeclared length", 7, 2, "PROGRAM P|A$U=|END|"},
    {"an undeclared filler's length", 7, 2, "PROGRAM P|SCAN A[(B$U)]|END|"},
    {"an undeclared m", 7, 2, "PROGRAM P|PRINT STRING(U)|END|"},
    {"an undeclared n", 7, 3, "PROGRAM P|NUMBER N|PRINT STRING(U,N)|END|"},
    {"an undeclared operand", 7, 2, "PROGRAM P|IF(U=1)/L|L:END|"},
    {"declared behind", 7, 2, "PROGRAM P|A$N=|NUMBER N|END|"},
    {"declared in a routine that is never executed", 0, 0, "PROGRAM P|ROUTINE R|NUMBER N|ENDROUTINE|N=1|END|"},
    {"7 before 8", 7, 2, "PROGRAM P|SCAN A$U[(A)]|END|"},

    {"the reference is a filler", 8, 2, "PROGRAM P|SCAN A[(A)]|END|"},
    {"the reference is a fixed filler", 8, 2, "PROGRAM P|SCAN A$1[\"X\",(A$1)]|END|"},
    {"a string behind its filler", 8, 2, "PROGRAM P|SCAN A[(B),B]|END|"},
    {"a substring behind its fixed filler", 8, 2, "PROGRAM P|BACKSCAN A[(B$1),\"X\",B$1]|END|"},
    {"a string before its filler", 0, 0, "PROGRAM P|SCAN A[B,(B)]|END|"},
    {"the same filler twice", 0, 0, "PROGRAM P|SCAN A[(B),(B),(B$1)]|END|"},
    {"the reference in pattern and replacement", 0, 0, "PROGRAM P|SCAN A[A,(B)]=A,B|END|"},
    {"8 before 10", 8, 2, "PROGRAM P|SCAN A[(A),B,B,B,B,B,B,B,B,B,B,B,B,B,B,B,B,B,B,B,B]|END|"},

    {"ROUTINE in a routine", 9, 3, "PROGRAM P|ROUTINE R|ROUTINE S|ENDROUTINE|ENDROUTINE|END|"},
    {"END in a routine", 9, 3, "PROGRAM P|ROUTINE R|END|"},
    {"RETURN outside", 9, 2, "PROGRAM P|RETURN|END|"},
    {"RETURN behind a routine", 9, 4, "PROGRAM P|ROUTINE R|ENDROUTINE|RETURN|END|"},
    {"ENDROUTINE outside", 9, 2, "PROGRAM P|ENDROUTINE|END|"},
    {"ENDROUTINE twice", 9, 4, "PROGRAM P|ROUTINE R|ENDROUTINE|ENDROUTINE|END|"},
    {"EXIT in a routine", 0, 0, "PROGRAM P|ROUTINE R|EXIT|ENDROUTINE|END|"},

    {"20 elements", 0, 0, "PROGRAM P|PRINT A,A,A,A,A,A,A,A,A,A,A,A,A,A,A,A,A,A,A,A|END|"},
    {"21 elements", 10, 2, "PROGRAM P|PRINT A,A,A,A,A,A,A,A,A,A,A,A,A,A,A,A,A,A,A,A,A|END|"},
    {"21 elements set", 10, 2, "PROGRAM P|B=A,A,A,A,A,A,A,A,A,A,A,A,A,A,A,A,A,A,A,A,A|END|"},
    {"20 elements in pattern and replacement", 0, 0,
     "PROGRAM P|!        +SCAN A[B,B,B,B,B,B,B,B,B,B,B,B,B,B,B,B,B,B,B,(C)]|!         =B,B,B,B,B,B,B,B,B,B,B,B,B,B,B,B,B,B,B,B|END|"},
    {"21 elements in a pattern", 10, 2, "PROGRAM P|SCAN A[B,B,B,B,B,B,B,B,B,B,B,B,B,B,B,B,B,B,B,B,(C)]|END|"},
    {"21 elements in a replacement", 10, 2, "PROGRAM P|SCAN A[]=B,B,B,B,B,B,B,B,B,B,B,B,B,B,B,B,B,B,B,B,B|END|"},
    {"7 before 10", 7, 2, "PROGRAM P|PRINT A$U,A,A,A,A,A,A,A,A,A,A,A,A,A,A,A,A,A,A,A,A|END|"},
    {"10 before 11", 10, 3, "PROGRAM P|GOTO X|PRINT A,A,A,A,A,A,A,A,A,A,A,A,A,A,A,A,A,A,A,A,A|END|"},

    {"an undefined label", 11, 0, "PROGRAM P|GOTO X|END|"},
    {"an undefined label on failure", 11, 0, "PROGRAM P|READ A/L,X|L:END|"},
    {"an undefined label on success", 11, 0, "PROGRAM P|SCAN A[]/X|END|"},
    {"an undefined label in IF", 11, 0, "PROGRAM P|IF(1=1)/,X|END|"},
    {"an undefined routine", 11, 0, "PROGRAM P|EXECUTE R|END|"},
    {"an undefined routine in a routine", 11, 0, "PROGRAM P|ROUTINE R|EXECUTE S|ENDROUTINE|END|"},
    {"a branch into a routine", 11, 0, "PROGRAM P|GOTO L|ROUTINE R|L:ENDROUTINE|END|"},
    {"a branch out of a routine", 11, 0, "PROGRAM P|ROUTINE R|GOTO L|ENDROUTINE|L:END|"},
    {"a branch to another routine", 11, 0, "PROGRAM P|ROUTINE R|GOTO L|ENDROUTINE|ROUTINE S|L:ENDROUTINE|END|"},
    {"a branch to the routine's own ROUTINE", 11, 0, "PROGRAM P|L:ROUTINE R|GOTO L|ENDROUTINE|END|"},
    {"a branch to ROUTINE from outside", 0, 0, "PROGRAM P|L:ROUTINE R|ENDROUTINE|GOTO L|END|"},
    {"a branch to ENDROUTINE", 0, 0, "PROGRAM P|ROUTINE R|READ A/L|L:ENDROUTINE|END|"},
    {"a label on NUMBER before ENDROUTINE", 0, 0, "PROGRAM P|ROUTINE R|GOTO L|L:NUMBER N|ENDROUTINE|END|"},
    {"a label on NUMBER before ROUTINE", 11, 0, "PROGRAM P|L:NUMBER N|ROUTINE R|GOTO L|ENDROUTINE|END|"},
    {"a label used on an ignored line only", 11, 0, "PROGRAM P|!        +GO|!L        TO L|END|"},
    {"11 before 12", 11, 0, "PROGRAM P|ROUTINE R|EXECUTE R|ENDROUTINE|GOTO X|END|"},
    {"a routine executes itself", 12, 0, "PROGRAM P|ROUTINE R|EXECUTE R|ENDROUTINE|END|"},
    {"two routines execute each other", 12, 0, "PROGRAM P|ROUTINE R|EXECUTE S|ENDROUTINE|ROUTINE S|EXECUTE R|ENDROUTINE|END|"},
    {"three routines in a ring", 12, 0,
     "PROGRAM P|ROUTINE R|EXECUTE S|ENDROUTINE|ROUTINE S|EXECUTE T|ENDROUTINE|ROUTINE T|EXECUTE R|ENDROUTINE|END|"},
    {"a ring that is never reached", 12, 0, "PROGRAM P|EXIT|ROUTINE R|RETURN|EXECUTE R|ENDROUTINE|END|"},
    {"a row of routines", 0, 0,
     "PROGRAM P|EXECUTE R|ROUTINE R|EXECUTE S|EXECUTE T|ENDROUTINE|ROUTINE S|EXECUTE T|ENDROUTINE|ROUTINE T|ENDROUTINE|END|"},
};

static uint8_t special(char letter)
{
    return (uint8_t)(letter == 'T' ? 9 : letter == 'R' ? 13 : letter == 'D' ? 127 : letter == 'H' ? 200 : 0);
}

static void put_short(struct deck *d, const char *at)
{
    while (*at) {
        const char *end = strchr(at, '|'), *colon = strchr(at, ':');
        size_t column = 0;
        if (!end) end = at + strlen(at);
        if (*at == '!') {
            at++;
        } else {
            if (colon && colon < end)
                for (; at < colon; column++) put_byte(d, (uint8_t)*at++);
            if (colon && colon < end) at++;
            for (; column < 9; column++) put_byte(d, ' ');
        }
        for (; at < end; at++) {
            put_byte(d, *at == '^' ? special(at[1]) : (uint8_t)*at);
            if (*at == '^') at++;
        }
        if (*at == '|') {
            put_byte(d, 10);
            at++;
        }
    }
}

/* Decks with a count: the form, how often it stands from which number on, what stands before and behind, and what is right. */
struct counted { const char *name; int number; uint32_t card; const char *before, *form; int from, count; const char *behind; };

static const struct counted counted_edges[] = {
    {"256 statements", 0, 0, "PROGRAM P|", "A=|", 0, 254, "END|"},
    {"257 statements", 10, 257, "PROGRAM P|", "A=|", 0, 255, "END|"},
    {"256 statements, PROGRAM, NUMBER and END among them", 0, 0, "PROGRAM P|", "A=|", 0, 253, "NUMBER N|END|"},
    {"257 statements with a NUMBER", 10, 257, "PROGRAM P|NUMBER N|", "A=|", 0, 254, "END|"},
    {"comments are no statements", 0, 0, "PROGRAM P|", "!* A|", 0, 300, "END|"},
    {"32 strings", 0, 0, "PROGRAM P|", "S%d=|", 1, 32, "END|"},
    {"33 strings", 10, 34, "PROGRAM P|", "S%d=|", 1, 33, "END|"},
    {"33 strings by LENGTH and others", 10, 34, "PROGRAM P|NUMBER N|", "N=LENGTH(S%d)|", 1, 31, "SCAN S1[(X),Y]|END|"},
    {"32 strings by LENGTH", 0, 0, "PROGRAM P|NUMBER N|", "N=LENGTH(S%d)|", 1, 32, "N=NUMBER(S32)|END|"},
    {"32 numbers", 0, 0, "PROGRAM P|", "NUMBER N%d|", 1, 32, "END|"},
    {"33 numbers", 10, 34, "PROGRAM P|", "NUMBER N%d|", 1, 33, "END|"},
    {"33 numbers, two at once", 10, 33, "PROGRAM P|", "NUMBER N%d|", 1, 31, "NUMBER A,B|END|"},
    {"64 labels", 0, 0, "PROGRAM P|", "L%d:A=|", 1, 64, "END|"},
    {"65 labels", 10, 66, "PROGRAM P|", "L%d:A=|", 1, 64, "L65:END|"},
    {"65 labels with PROGRAM's and NUMBER's", 10, 66, "X:PROGRAM P|Y:NUMBER N|", "L%d:A=|", 1, 62, "A=|L63:END|"},
    {"labels used don't count", 11, 0, "PROGRAM P|", "GOTO L%d|", 1, 70, "END|"},
    {"16 routines", 0, 0, "PROGRAM P|", "ROUTINE R%d|ENDROUTINE|", 1, 16, "END|"},
    {"17 routines", 10, 34, "PROGRAM P|", "ROUTINE R%d|ENDROUTINE|", 1, 17, "END|"},
    {"routines used don't count", 11, 0, "PROGRAM P|", "EXECUTE R%d|", 1, 20, "END|"},
    {"1,024 elements", 0, 0, "PROGRAM P|", "PRINT A,A,A,A,A,A,A,A,A,A,A,A,A,A,A,A|", 0, 64, "PRINT|END|"},
    {"1,025 elements", 10, 66, "PROGRAM P|", "PRINT A,A,A,A,A,A,A,A,A,A,A,A,A,A,A,A|", 0, 64, "PRINT A|END|"},
    {"1,025 elements, fillers too", 10, 66, "PROGRAM P|", "SCAN A[(B),(B),(B),(B),(B),(B),(B),(B)]=A,A,A,A,A,A,A,A|", 0, 64,
     "SCAN A[(B)]|END|"},
    {"1,024 operands and operators", 0, 0, "PROGRAM P|NUMBER N|", "N=-1+1*(2-1)|", 0, 128, "A=B$N|END|"},
    {"1,025 operands and operators", 10, 131, "PROGRAM P|NUMBER N|", "N=-1+1*(2-1)|", 0, 128, "N=1|END|"},
    {"IF's operands don't count", 0, 0, "PROGRAM P|NUMBER N|", "N=-1+1*(2-1)|", 0, 128, "L:IF(N=1)/L|END|"},
    {"4,096 literal bytes", 0, 0, "PROGRAM P|", "A=\"12345678901234567890123456789012\"|", 0, 128, "A=|END|"},
    {"4,097 literal bytes", 10, 130, "PROGRAM P|", "A=\"12345678901234567890123456789012\"|", 0, 128, "A=\"\"\"|END|"},
    {"4,097 literal bytes, the last in a pattern", 10, 130, "PROGRAM P|", "A=\"12345678901234567890123456789012\"|", 0, 128,
     "SCAN A[\"A\"]|END|"},
    {"4,096 bytes of one literal", 0, 0, "PROGRAM P|!        +A=\"|", "!        +12345678901234567890123456789012|", 0, 128, "\"|END|"},
    {"4,097 bytes of one literal", 10, 2, "PROGRAM P|!        +A=\"|", "!        +12345678901234567890123456789012|", 0, 128, "1\"|END|"},
    {"a comment behind 513 lines of a statement", 3, 3, "PROGRAM P|NUMBER N|!        +N=1|", "!        ++1|", 0, 512, "!*|END|"},
    {"1,023 operands in one statement", 0, 0, "PROGRAM P|NUMBER N|!        +N=1|", "!        ++1|", 0, 511, "!A|END|"},
    {"1,025 operands in one statement", 10, 3, "PROGRAM P|NUMBER N|!        +N=1|", "!        ++1|", 0, 512, "!A|END|"},
    {"200 elements in one statement", 10, 2, "PROGRAM P|!        +PRINT A|", "!        +,A|", 0, 200, "!A|END|"},
    {"60 names in one statement", 7, 2, "PROGRAM P|!        +PRINT A|", "!        +,A$N%d|", 1, 60, "!A|END|"},
    {"40 numbers in one statement", 10, 2, "PROGRAM P|!        +NUMBER N|", "!        +,N%d|", 1, 40, "!A|END|"},
    {"9 before 10", 9, 257, "PROGRAM P|", "A=|", 0, 255, "RETURN|END|"},
    {"9 before 10, a 17th routine", 9, 35, "PROGRAM P|", "ROUTINE R%d|ENDROUTINE|", 1, 16, "EXIT|ENDROUTINE|END|"},
    {"5 before 10", 5, 257, "PROGRAM P|", "A=|", 0, 255, "?|END|"},
    {"6 before 10", 6, 257, "PROGRAM P|", "A=|", 0, 255, "P=|END|"},
    {"3,000 statements", 10, 257, "PROGRAM P|", "A=|", 0, 2700, "END|"},
};

static void put_counted(struct deck *d, const struct counted *c)
{
    char line[128];
    put_short(d, c->before);
    for (int i = 0; i < c->count; i++) {
        snprintf(line, sizeof line, c->form, c->from + i);
        put_short(d, line);
    }
    put_short(d, c->behind);
}

/* Lines and decks of a length: a prefix, then one byte over and over up to the length. */
struct filled { const char *name; int number; uint32_t card; const char *before, *line; char filling; int length; const char *behind; };

static const struct filled filled_lines[] = {
    {"a line of 80", 0, 0, "PROGRAM P|", "!         A=", ' ', 80, "!|END|"},
    {"a line of 81", 3, 2, "PROGRAM P|", "!         A=", ' ', 81, "!|END|"},
    {"a comment of 80", 0, 0, "PROGRAM P|", "!*", '*', 80, "!|END|"},
    {"a comment of 81", 3, 2, "PROGRAM P|", "!*", '*', 81, "!|END|"},
    {"a blank line of 80", 0, 0, "PROGRAM P|", "!", ' ', 80, "!|END|"},
    {"a blank line of 81", 3, 2, "PROGRAM P|", "!", ' ', 81, "!|END|"},
    {"a comment of 81 behind END", 3, 3, "PROGRAM P|END|", "!*", ' ', 81, "!|"},
    {"a joined line of 81", 3, 2, "PROGRAM P|!        +A=|", "!         B", ' ', 81, "!|END|"},
    {"a first line of 81", 3, 1, "", "!         PROGRAM P", ' ', 81, "!|END|"},
    {"a last line of 80, no byte 10", 0, 0, "PROGRAM P|", "!         END", ' ', 80, ""},
    {"a last line of 81, no byte 10", 3, 2, "PROGRAM P|", "!         END", ' ', 81, ""},
    {"columns 73 to 80 are nothing", 0, 0, "PROGRAM P|!         A=                                                             \"\"?=/a|",
     "!         END", ' ', 72, "!?\"\"|"},
    {"column 72 is the last of the statement", 5, 2, "PROGRAM P|", "!         A=", ' ', 71, "!?|END|"},
    {"column 73 is not", 0, 0, "PROGRAM P|", "!         A=", ' ', 72, "!?|END|"},
    {"column 8 is the label's last", 6, 3, "PROGRAM P|L:A=|", "!       L A=", ' ', 12, "!|END|"},
    {"column 9 is no label's, it joins END", 4, 0, "PROGRAM P|L:A=|", "!        LA=", ' ', 11, "!|END|"},
    {"column 10 is the first of the statement", 0, 0, "PROGRAM P|L:A=|", "!        LA=|!         A", ' ', 22, "!|END|"},
    {"a line of 1,000", 3, 2, "PROGRAM P|", "!*", '.', 1000, "!|END|"},
};

static const struct filled filled_decks[] = {
    {"a deck of 32,768", 0, 0, "PROGRAM P|END|", "", 10, 32768, ""},
    {"a deck of 32,769", 1, 0, "PROGRAM P|END|", "", 10, 32769, ""},
    {"a deck of 32,769 of bad form", 1, 0, "^T|", "", 10, 32769, ""},
    {"a deck of 40,000", 1, 0, "", "", ' ', 40000, ""},
    {"a deck of 32,768 blanks", 3, 1, "", "", ' ', 32768, ""},
    {"a deck of 32,768 bytes 10", 4, 0, "", "", 10, 32768, ""},
    {"a deck of 32,768 letters", 3, 1, "", "", 'A', 32768, ""},
};

static void put_filled(struct deck *d, const struct filled *f, size_t from)
{
    put_short(d, f->line);
    while (d->length < from + (size_t)f->length) put_byte(d, (uint8_t)f->filling);
    put_short(d, f->behind);
}

void short_deck(const char *lines, struct deck *d)
{
    start_deck(d, "short");
    put_short(d, lines);
}

/* Decks that one statement fills: what stands before it, then `first`, `each` as often as there is room, with %s a name of its own each time,
   `last`, and END. */
#define FULL "PROGRAM FULL|"
#define FULL_N FULL "NUMBER N|"
static const struct { const char *name, *before, *first, *each, *last; } long_decks[] = {
    {"a NUMBER statement with thousands of names", FULL, "NUMBER A", ",%s", ""},
    {"PRINT of thousands of strings", FULL, "PRINT A", ",%s", ""},
    {"PRINT of one string thousands of times", FULL, "PRINT A", ",A", ""},
    {"PRINT of thousands of substrings", FULL, "PRINT A", ",%s$1", ""},
    {"a pattern of thousands of fillers", FULL, "SCAN REF [(A)", ",(%.3s)", "]"},
    {"a pattern of fillers and strings in turn", FULL, "SCAN REF [A", ",(%1$s),B%1$s", "]"},
    {"a pattern of a filler and a string in turn", FULL, "SCAN REF [A", ",(B),A", "]"},
    {"a sum of thousands of ones", FULL_N, "N=1", "+1", ""},
    {"a sum of thousands of LENGTHs", FULL_N, "N=1", "+LENGTH(%s)", ""},
    {"thousands of opening parentheses", FULL_N, "N=", "(", ""},
    {"thousands of pairs of parentheses", FULL_N, "N=1", "+(1)", ""},
    {"a constant of thousands of digits", FULL_N, "N=", "00000000", ""},
    {"a literal of thousands of bytes", FULL, "PRINT \"", "ABCDEFGH", "\""},
    {"thousands of literals of one byte", FULL, "PRINT \"A\"", ",\"A\"", ""},
    {"thousands of literals of one quote", FULL, "PRINT \"A\"", ",\"\"\"", ""},
    {"a statement of blanks, broken at its end", FULL, "PRINT A", "          ", ",,"},
    {"N=1*1*1*..", FULL_N, "N=1", "*1", ""},
    {"N=N*N+N*N+..", FULL_N, "N=N*N", "+N*N", ""},
    {"N=(((1)))+(((1)))+..", FULL_N, "N=1", "+((((((((((((((((1))))))))))))))))", ""},
    {"N=(1+(1+(1+..", FULL_N, "N=1", "+(1*(1+(1*(1+(1*(1+(1*(1+(1*(1+(1*(1+(1*(1+(1*(1+1))))))))))))))))", ""},
    {"N=((..1+1+1+..", FULL_N, "N=((((((((((((((((1", "+1", ""},
    {"N=1*((..*1*1*1..))", FULL_N, "N=1*(1*(1*(1*(1*(1*(1*(1*(1*(1*(1*(1*(1*(1*(1*(1*(1", "*1", "))))))))))))))))"},
    {"N=-NUMBER(A$N)-..", FULL_N, "N=-1", "-NUMBER(A$N)", ""},
    {"N=LENGTH(A)*..", FULL_N, "N=1", "*LENGTH(A)", ""},
    {"N=1111..", FULL_N, "N=1", "1", ""},
    {"PRINT STRING(-1,N),..", FULL_N, "PRINT A", ",STRING(-1,N)", ""},
    {"SCAN A[(B),C,..]", FULL_N, "SCAN A[(B)", ",C,(B$N)", "]"},
    {"NUMBER X,X,..", FULL, "NUMBER X", ",X", ""},
    {"AAAA..", FULL, "A", "A", ""},
};

int long_deck(int place, struct deck *d)
{
    enum { COLUMNS = 63, CARD = 73, LONGEST_EACH = 80 };
    static char text[MOST_DECK];
    size_t n, room;
    if (place >= (int)(sizeof long_decks / sizeof long_decks[0])) return 0;
    start_deck(d, long_decks[place].name);
    put_short(d, long_decks[place].before);
    room = (MOST_DECK - d->length) * COLUMNS / CARD - 120;
    n = (size_t)snprintf(text, sizeof text, "%s", long_decks[place].first);
    for (int i = 0; n < room; i++) n += (size_t)snprintf(text + n, LONGEST_EACH, long_decks[place].each, made_name(i % MADE_NAMES));
    n += (size_t)snprintf(text + n, LONGEST_EACH, "%s", long_decks[place].last);
    put_statement(d, "", text, n, 0);
    put_short(d, "END|");
    return 1;
}

/* Ten doublings make a string of 1,024 bytes. */
#define DOUBLED "A=\"X\"|A=A,A|A=A,A|A=A,A|A=A,A|A=A,A|A=A,A|A=A,A|A=A,A|A=A,A|A=A,A|"
#define X8 "XXXXXXXX"
#define X64 X8 X8 X8 X8 X8 X8 X8 X8
#define X1024 X64 X64 X64 X64 X64 X64 X64 X64 X64 X64 X64 X64 X64 X64 X64 X64
#define X1023 X64 X64 X64 X64 X64 X64 X64 X64 X64 X64 X64 X64 X64 X64 X64 X8 X8 X8 X8 X8 X8 X8 "XXXXXXX"
#define NUMBERS "PROGRAM P|NUMBER N,M,K|"

static const struct run_edge run_edges[] = {
    /* Document 01's trade lines, and examples of the manual */
    {"P1", NUMBERS "A=\"ABCDEFGHIJKLMNOP\"|SCAN A[(X$5),(Y),\"K\",(Z)]|PRINT X,\".\",Y,\".\",Z|END|", "", 100,
     "ABCDE.FGHIJ.LMNOP\nFINISHED,0,4,0\n"},
    {"P2", NUMBERS "S=\"123.\"|SCAN S[(A),(T$3),\".\"]|PRINT A,\"/\",T|END|", "", 100, "/123\nFINISHED,0,4,0\n"},
    {"P3", NUMBERS "S=\"HOU\"|SCAN S[(A),(B),(C)]|PRINT A,\"/\",B,\"/\",C|END|", "", 100, "//HOU\nFINISHED,0,4,0\n"},
    {"P4", NUMBERS "S=\"ABCD\"|SCAN S[(X$2),(Y$3)]/,F|PRINT \"FITS\"|F:END|", "", 100, "FINISHED,0,3,0\n"},
    {"P5", NUMBERS "SCAN S[(F)]/,X|PRINT \"FITS\"|X:END|", "", 100, "FITS\nFINISHED,0,3,0\n"},
    {"P6", NUMBERS "S=\"ABCDE\"|SCAN S[\"A\",(F),\"C\",(F)]|PRINT F|END|", "", 100, "DE\nFINISHED,0,4,0\n"},
    {"P7", NUMBERS "S=\"AAB\"|SCAN S[\"AB\"]=\".\"|PRINT S|END|", "", 100, "A.\nFINISHED,0,4,0\n"},
    {"P8", NUMBERS "S=\"AB\"|SCAN S[\"B\",\"C\"]/,F|PRINT \"FITS\"|F:END|", "", 100, "FINISHED,0,3,0\n"},
    {"P9", NUMBERS "S=\"ABC\"|BACKSCAN S[(X$1),(Y$2)]=Y,X|PRINT S,\" \",X,\" \",Y|END|", "", 100, "CAB C BA\nFINISHED,0,4,0\n"},
    {"P10", NUMBERS "N=-12|PRINT STRING(-4,N)|END|", "", 100, "- 12\nFINISHED,0,3,0\n"},
    {"P11", NUMBERS "N=-12|PRINT STRING(2,N)|END|", "", 100, "-1\nFINISHED,0,3,1\n"},
    {"P12", NUMBERS "S=\"3 \"|N=NUMBER(S)|PRINT STRING(N)|END|", "", 100, "30\nFINISHED,0,4,0\n"},
    {"past the largest number", NUMBERS "N=8388607+1|END|", "", 100, "STOPPED,19,1,0\n"},
    {"the manual, 2.4",
     NUMBERS "A=\"ABCDEFGHIJKLMNOPQRSTUVWXYZ\"|N=LENGTH(A)+1|M=N*(N-7)/2|K=-(M*N/M/N)+7|"
             "!        +PRINT STRING(N),\" \",STRI|NG(M),\" \",STRING(K)|END|",
     "", 100, "27 270 6\nFINISHED,0,6,0\n"},
    {"the manual, 6.1", NUMBERS "STR=\"ABC\"|STR$N=\"123\"|STR$4=STR,STR$N,\"X\"|PRINT STR|END|", "", 100, "123ABCXBC\nFINISHED,0,5,0\n"},
    {"the manual, 6.4", NUMBERS "I=\"ABC00\"|BACKSCAN I$4[\"00\",(X)]|PRINT X|END|", "", 100, "CB\nFINISHED,0,4,0\n"},
    /* 17 */
    {"a reference length below zero", NUMBERS "N=-1|SCAN A$N[]|END|", "", 100, "STOPPED,17,2,0\n"},
    {"a reference length of zero", NUMBERS "A=\"X\"|SCAN A$N[(B)]=\"Y\"|PRINT A,B|END|", "", 100, "YX\nFINISHED,0,4,0\n"},
    {"17 before the pattern's 20", NUMBERS "N=-1|SCAN A$N[STRING(1025,N)]|END|", "", 100, "STOPPED,17,2,0\n"},
    {"a READ length below zero, no input left", NUMBERS "N=-1|READ A$N/E|E:END|", "", 100, "STOPPED,17,2,0\n"},
    {"a READ length below zero", NUMBERS "N=-1|READ A$N/E|E:END|", "ABC", 100, "STOPPED,17,2,0\n"},
    /* 18, 19 */
    {"a divisor of zero", NUMBERS "N=1/N|END|", "", 100, "STOPPED,18,1,0\n"},
    {"18 before 19", NUMBERS "N=8388607+1/0|END|", "", 100, "STOPPED,18,1,0\n"},
    {"19 before 18", NUMBERS "N=8388607+1+1/0|END|", "", 100, "STOPPED,19,1,0\n"},
    {"19 in the middle", NUMBERS "N=8388607+1-1|END|", "", 100, "STOPPED,19,1,0\n"},
    {"the largest number", NUMBERS "N=8388606+1|PRINT STRING(N)|END|", "", 100, "8388607\nFINISHED,0,3,0\n"},
    {"the least number", NUMBERS "N=-8388606-1|PRINT STRING(N)|END|", "", 100, "-8388607\nFINISHED,0,3,0\n"},
    {"below the least number", NUMBERS "N=-8388607-1|END|", "", 100, "STOPPED,19,1,0\n"},
    {"a product at the limit", NUMBERS "N=-47*178481|PRINT STRING(N)|END|", "", 100, "-8388607\nFINISHED,0,3,0\n"},
    {"a product past the limit", NUMBERS "N=2896*2897|END|", "", 100, "STOPPED,19,1,0\n"},
    {"the largest product", NUMBERS "N=8388607*8388607|END|", "", 100, "STOPPED,19,1,0\n"},
    {"division goes towards zero", NUMBERS "N=-7/2|M=7/(-2)|K=-7/(-2)|PRINT STRING(N),STRING(M),STRING(K)|END|", "", 100,
     "-3-33\nFINISHED,0,5,0\n"},
    {"left to right", NUMBERS "N=7/2*2|M=10-3-2|K=2+3*4-1|PRINT STRING(N),\" \",STRING(M),\" \",STRING(K)|END|", "", 100,
     "6 5 13\nFINISHED,0,5,0\n"},
    {"NUMBER at the limit", NUMBERS "A=\"-8388607\"|N=NUMBER(A)|PRINT STRING(N)|END|", "", 100, "-8388607\nFINISHED,0,4,0\n"},
    {"NUMBER past the limit", NUMBERS "A=\"8388608\"|N=NUMBER(A)|END|", "", 100, "STOPPED,19,2,0\n"},
    {"NUMBER past the limit in IF", NUMBERS "A=\"-8388608\"|IF(NUMBER(A)=0)/E|E:END|", "", 100, "STOPPED,19,2,0\n"},
    {"NUMBER with many zeros", NUMBERS "A=\"+00000000000000000000000012\"|N=NUMBER(A)|PRINT STRING(N)|END|", "", 100,
     "12\nFINISHED,0,4,0\n"},
    {"NUMBER of blanks", NUMBERS "A=\"-  \"|N=NUMBER(A)|IF(NUMERIC(A))/T,F|T:PRINT STRING(N)|F:END|", "", 100, "0\nFINISHED,0,5,0\n"},
    {"NUMBER of what isn't numeric",
     NUMBERS "A=\"1A\"|N=NUMBER(A)|N=NUMBER(B)|A=\"+\"|N=NUMBER(A)|A=\"1-\"|N=NUMBER(A)|PRINT STRING(N)|END|",
     "", 100, "0\nFINISHED,0,9,4\n"},
    {"NUMERIC of null and others",
     NUMBERS "IF(NUMERIC(A))/T|A=\"+\"|IF(NUMERIC(A))/T|A=\" 1\"|IF(NUMERIC(A))/,T|A=\" +1\"|IF(NUMERIC(A))/T|PRINT \"OK\"|T:END|",
     "", 100, "OK\nFINISHED,0,9,0\n"},
    {"NUMERIC of a negative substring", NUMBERS "A=\"1\"|N=-1|IF(NUMERIC(A$N))/T|PRINT \"F\"|T:END|", "", 100, "F\nFINISHED,0,5,1\n"},
    {"NUMBER of a negative substring", NUMBERS "A=\"1\"|N=-1|M=NUMBER(A$N)|PRINT STRING(M)|END|", "", 100, "0\nFINISHED,0,5,2\n"},
    {"IF values both operands", NUMBERS "IF(NUMBER(A)=NUMBER(B))/E|E:END|", "", 100, "FINISHED,0,2,2\n"},
    /* 20 */
    {"a string of 1,024", "PROGRAM P|" DOUBLED "PRINT A|END|", "", 2000, X1024 "\nFINISHED,0,13,0\n"},
    {"a string of 1,025", "PROGRAM P|" DOUBLED "A=A,\"Y\"|END|", "", 2000, "STOPPED,20,12,0\n"},
    {"S$n= makes 1,024", "PROGRAM P|" DOUBLED "A$1=\"Y\"|A$1=|A$0=\"X\"|A$2=\"XX\"|PRINT A|END|", "", 2000, X1024 "\nFINISHED,0,17,0\n"},
    {"S$n= makes 1,025", "PROGRAM P|" DOUBLED "A$1=\"YZ\"|END|", "", 2000, "STOPPED,20,12,0\n"},
    {"a replacement makes 1,025", "PROGRAM P|" DOUBLED "SCAN A[(B$1)]=B,B|END|", "", 2000, "STOPPED,20,12,0\n"},
    {"a replacement keeps 1,024", "PROGRAM P|" DOUBLED "SCAN A[(B$1)]=B|PRINT A,B|END|", "", 2000, X1024 "\nFINISHED,0,14,1\n"},
    {"a printed row of 1,025", "PROGRAM P|" DOUBLED "PRINT A,\"Y\"|END|", "", 2000, X1024 "\nFINISHED,0,13,1\n"},
    {"a width of 1,024", NUMBERS "A=STRING(1024,N)|M=LENGTH(A)|PRINT STRING(M)|END|", "", 100, "1024\nFINISHED,0,4,0\n"},
    {"a width of 1,025", NUMBERS "A=STRING(1025,N)|END|", "", 100, "STOPPED,20,1,0\n"},
    {"a width of -1,025 printed", NUMBERS "PRINT STRING(-1025,N)|END|", "", 100, "STOPPED,20,1,0\n"},
    {"a width of 1,025 in a pattern", NUMBERS "SCAN A[STRING(1025,N)]|END|", "", 100, "STOPPED,20,1,0\n"},
    {"a width of 1,025 in a replacement that is not valued", NUMBERS "SCAN A[\"X\"]=STRING(1025,N)|END|", "", 100, "FINISHED,0,2,0\n"},
    {"a width of 1,025 in a replacement leaves all as before", NUMBERS "A=\"X\"|B=\"B\"|SCAN A[(B)]=STRING(1025,N)|END|", "", 100,
     "STOPPED,20,3,0\n"},
    {"notes of a stopped step", NUMBERS "N=-1|A=B$N,STRING(1025,N)|END|", "", 100, "STOPPED,20,2,0\n"},
    {"a width of zero", NUMBERS "N=-12|PRINT STRING(0,N),STRING(M,N)|END|", "", 100, "-12-12\nFINISHED,0,3,0\n"},
    {"a width with zeros and blanks", NUMBERS "N=-12|M=7|PRINT STRING(5,N),STRING(-5,N)|PRINT STRING(3,M),STRING(-3,M),STRING(3,N)|END|",
     "", 100,
     "-0012-  12\n007  7-12\nFINISHED,0,5,0\n"},
    {"a width too small", NUMBERS "N=-12|M=123|PRINT STRING(1,N),STRING(2,M),STRING(-2,M),STRING(2,N)|END|", "", 100,
     "-1212-1\nFINISHED,0,4,4\n"},
    /* 21 */
    {"a record that fits the output", "PROGRAM P|PRINT \"ABC\"|END|", "", 4, "ABC\nFINISHED,0,2,0\n"},
    {"a record that doesn't fit the output", "PROGRAM P|PRINT \"ABC\"|END|", "", 3, "STOPPED,21,1,0\n"},
    {"a second record that doesn't fit", "PROGRAM P|PRINT \"ABC\"|PRINT \"D\"|END|", "", 5, "ABC\nSTOPPED,21,2,0\n"},
    {"a null record needs no output", NUMBERS "N=-1|PRINT|PRINT A|PRINT A$N|END|", "", 0, "FINISHED,0,5,1\n"},
    {"21 looks at the cut record", "PROGRAM P|" DOUBLED "PRINT A,A|END|", "", 1025, X1024 "\nFINISHED,0,13,1\n"},
    {"21 at the cut record", "PROGRAM P|" DOUBLED "PRINT A,A|END|", "", 1024, "STOPPED,21,12,0\n"},
    /* READ */
    {"records", "PROGRAM P|L:READ A/,E|PRINT \"(\",A,\")\"|GOTO L|E:END|", "A\n\nBC", 100, "(A)\n()\n(BC)\nFINISHED,0,11,0\n"},
    {"a last byte 10 begins no record", "PROGRAM P|L:READ A/,E|PRINT \"(\",A,\")\"|GOTO L|E:END|", "A\n", 100, "(A)\nFINISHED,0,5,0\n"},
    {"a READ of length 0", "PROGRAM P|A=\"X\"|READ A$0/E|PRINT A|READ A|PRINT A|E:END|", "AB", 100, "X\nAB\nFINISHED,0,6,0\n"},
    {"a READ of length 2", "PROGRAM P|A=\"XYZ\"|READ A$2|PRINT A|READ A|PRINT A|END|", "ABCD\nE", 100, "AB\nE\nFINISHED,0,6,1\n"},
    {"a failed READ changes nothing", "PROGRAM P|A=\"X\"|READ A/T|PRINT A|T:END|", "", 100, "X\nFINISHED,0,4,0\n"},
    {"a record of 1,024", "PROGRAM P|READ A|PRINT A|READ A|PRINT A|END|", X1024 "\nB", 2000, X1024 "\nB\nFINISHED,0,5,0\n"},
    {"a record of 1,025", "PROGRAM P|READ A|PRINT A|READ A|PRINT A|END|", X1024 "Y\nB", 2000, X1024 "\nB\nFINISHED,0,5,1\n"},
    {"a record over a length over 1,024", "PROGRAM P|READ A$2000|PRINT A|END|", X1024 "YYY\nB", 2000, X1024 "\nFINISHED,0,3,1\n"},
    {"a record cut at 1,023", "PROGRAM P|READ A$1023|PRINT A|END|", X1024 "Y\nB", 2000, X1023 "\nFINISHED,0,3,1\n"},
    /* Substrings */
    {"substrings", NUMBERS "A=\"ABC\"|N=2|PRINT A$0,A$1,A$N,A$3,A$4|END|", "", 100, "AABABCABC\nFINISHED,0,4,0\n"},
    {"a negative substring", NUMBERS "A=\"ABC\"|N=-1|PRINT A$N,\"X\",A$N|END|", "", 100, "X\nFINISHED,0,4,2\n"},
    {"a negative replacement values nothing", NUMBERS "A=\"ABC\"|N=-1|A$N=A$N,A$N,STRING(1025,N)|PRINT A|END|", "", 100,
     "ABC\nFINISHED,0,5,1\n"},
    {"a replacement of a beginning", "PROGRAM P|A=\"ABC\"|A$1=A,\"X\"|PRINT A|A$99=\"Y\"|PRINT A|END|", "", 100,
     "ABCXBC\nY\nFINISHED,0,6,0\n"},
    /* Scans */
    {"fillers are null after a failure", "PROGRAM P|A=\"ABC\"|F=\"X\"|SCAN A[(F),\"Z\"]/T|PRINT \"(\",F,A,\")\"|T:END|", "", 100,
     "(ABC)\nFINISHED,0,5,0\n"},
    {"pattern values are older than null fillers", "PROGRAM P|A=\"XY\"|F=\"X\"|SCAN A[F,(F)]|PRINT F|END|", "", 100, "Y\nFINISHED,0,5,0\n"},
    {"a negative fixed filler", NUMBERS "A=\"AB\"|F=\"Q\"|N=-1|SCAN A[\"A\",(F$N),(G)]|PRINT \"(\",F,G,\")\"|END|", "", 100,
     "(B)\nFINISHED,0,6,1\n"},
    {"a negative fixed filler of a name that is named", NUMBERS "A=\"AB\"|N=-1|SCAN A[(F$1),(F$N)]|PRINT F|END|", "", 100,
     "A\nFINISHED,0,5,1\n"},
    {"a free filler before a negative one isn't last", NUMBERS "A=\"AB\"|N=-1|SCAN A[(G),(F$N)]|PRINT \"(\",G,\")\"|END|", "", 100,
     "()\nFINISHED,0,5,1\n"},
    {"the replacement sees fillers named and the old reference", "PROGRAM P|A=\"ABCD\"|SCAN A[\"B\",(F$1)]=A,F|PRINT A|END|", "", 100,
     "AABCDCD\nFINISHED,0,4,0\n"},
    {"bytes outside a restricted reference stay", "PROGRAM P|A=\"ABAB\"|SCAN A$3[\"B\",(F)]=\"-\"|PRINT A,F|END|", "", 100,
     "A-BA\nFINISHED,0,4,0\n"},
    {"a scan restricted too much", "PROGRAM P|A=\"ABAB\"|SCAN A$1[\"B\"]/T|PRINT \"F\"|T:END|", "", 100, "F\nFINISHED,0,4,0\n"},
    {"BACKSCAN, the replacement is turned once", "PROGRAM P|A=\"ABC\"|BACKSCAN A[\"B\"]=\"12\",A|PRINT A|END|", "", 100,
     "ACBA21C\nFINISHED,0,4,0\n"},
    {"BACKSCAN, the last bytes", "PROGRAM P|A=\"XABX\"|BACKSCAN A$3[\"BA\"]=\"12\"|PRINT A|END|", "", 100, "X21X\nFINISHED,0,4,0\n"},
    {"BACKSCAN, fillers aren't turned back", "PROGRAM P|A=\"XYZ\"|BACKSCAN A[(B)]|PRINT B,A|END|", "", 100, "ZYXXYZ\nFINISHED,0,4,0\n"},
    {"BACKSCAN strips blanks", "PROGRAM P|A=\"AB  \"|L:BACKSCAN A$1[\" \"]=/L|PRINT A,\".\"|END|", "", 100, "AB.\nFINISHED,0,6,0\n"},
    {"an empty pattern", "PROGRAM P|A=\"AB\"|SCAN A[]=\"X\"|BACKSCAN A[]=\"Y\"|PRINT A|END|", "", 100, "XABY\nFINISHED,0,5,0\n"},
    {"= with nothing takes out", "PROGRAM P|A=\"ABA\"|SCAN A[\"B\",(F$1)]=|PRINT A,F|END|", "", 100, "AA\nFINISHED,0,4,0\n"},
    {"no going back before the nearest free filler",
     "PROGRAM P|A=\"ABAC\"|SCAN A[\"A\",(F),\"A\",\"C\"]/T|PRINT \"F\"|EXIT|T:PRINT F|END|", "", 100,
     "B\nFINISHED,0,4,0\n"},
    /* Routines */
    {"a routine is passed by", "PROGRAM P|PRINT \"A\"|ROUTINE R|PRINT \"B\"|ENDROUTINE|PRINT \"C\"|END|", "", 100,
     "A\nC\nFINISHED,0,4,0\n"},
    {"a routine in a routine",
     "PROGRAM P|EXECUTE R|PRINT \"Z\"|EXIT|ROUTINE R|EXECUTE S|PRINT \"R\"|RETURN|ENDROUTINE|ROUTINE S|PRINT \"S\"|ENDROUTINE|END|",
     "", 100, "S\nR\nZ\nFINISHED,0,8,0\n"},
    {"EXIT in a routine", "PROGRAM P|EXECUTE R|ROUTINE R|EXIT|ENDROUTINE|END|", "", 100, "FINISHED,0,2,0\n"},
    {"all comparisons",
     NUMBERS "N=1|IF(N=1)/,F|IF(N<>2)/,F|IF(N<2)/,F|IF(N>0)/,F|IF(N<=1)/,F|IF(N>=1)/,F|"
             "IF(N=2)/F|IF(N<>1)/F|IF(N<1)/F|IF(N>1)/F|IF(N<=0)/F|IF(N>=2)/F|"
             "PRINT \"OK\"|F:END|",
     "", 100, "OK\nFINISHED,0,15,0\n"},
    {"NULL and LENGTH", NUMBERS "IF(NULL(A))/,F|A=\"X\"|IF(NULL(A))/F|IF(LENGTH(A)=1)/,F|PRINT \"OK\"|F:END|", "", 100,
     "OK\nFINISHED,0,6,0\n"},
};

int run_edge(int place, struct run_edge *edge)
{
    if (place >= (int)(sizeof run_edges / sizeof run_edges[0])) return 0;
    *edge = run_edges[place];
    return 1;
}

#define COUNT(edges) ((int)(sizeof edges / sizeof edges[0]))
#define ANSWER(d, e) ((d)->name = (e).name, (d)->number = (e).number, (d)->card = (e).card)

int edge_deck(int place, struct deck *d)
{
    d->length = 0;
    if (place < COUNT(short_edges)) {
        ANSWER(d, short_edges[place]);
        put_short(d, short_edges[place].lines);
        return 1;
    }
    place -= COUNT(short_edges);
    if (place < COUNT(counted_edges)) {
        ANSWER(d, counted_edges[place]);
        put_counted(d, &counted_edges[place]);
        return 1;
    }
    place -= COUNT(counted_edges);
    if (place < COUNT(filled_lines)) {
        ANSWER(d, filled_lines[place]);
        put_short(d, filled_lines[place].before);
        put_filled(d, &filled_lines[place], d->length);
        return 1;
    }
    place -= COUNT(filled_lines);
    if (place < COUNT(filled_decks)) {
        ANSWER(d, filled_decks[place]);
        put_short(d, filled_decks[place].before);
        put_filled(d, &filled_decks[place], 0);
        return 1;
    }
    return 0;
}
