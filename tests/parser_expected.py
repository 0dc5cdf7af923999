#!/usr/bin/env python3
"""The cases of crates/parser_cases and the answers that are owed.

Every tree below was written down from 01-scope.md and parser.rs, node by node; none was taken from what a program printed.
Only texts with a part that is repeated up to the nest limit have trees that are computed. Of every refused text it was found in
the same way which token is the first that no attempt takes, and it is marked in the text. Token tables are made by the
model of expected.py. That a table too small for a tree holds its first nodes, and that all are counted, is the reader's own
rule and not 01's, whose outcome 6 is given further up.

  parser_expected.py           write the case files of crates/parser_cases
  parser_expected.py --check   say whether the files on disk are what would be written; exit 1 if not
"""

import sys

sys.dont_write_bytecode = True

import expected

# 01's kinds of nodes, numbered from 1.
NODE_KINDS = """
Name Named Pointer TypeTuple FixedArray Count Literal LiteralFelt LiteralU32 Bool Identifier Unary Binary Call Member Index
StructLiteral Tuple TupleIndex Array ArrayRepeat Cast New Paren PatternTuple Let Const Assign Return If ExprStmt Block Loop
While For Break Continue Param Function StructDef UseSingle UseList
""".split()

# The kinds that carry the base of their numeral; every other node has 0 for it.
BASED = ("Count", "Literal", "LiteralFelt", "LiteralU32")

# ---- trees written by hand
#
# A line at the margin is a text. The lines under it are its nodes: kind, start, end, number of children, value, the base where the
# kind carries one, and then, for the eye, the part of the text that the span has. A span of 0..0 has none. Offsets are those of the
# whole text:
#   items    the text as it stands
#   values   `const A = TEXT;`, so that TEXT begins at 10
#   types    `const A: TEXT = 1;`, so that TEXT begins at 9
#   bodies   `fn f() { TEXT }`, so that TEXT begins at 9
# The nodes of what stands around TEXT are added: Name 6 7, (the Literal 1) and Const; or Name 3 4, TypeTuple 0 0 and Function.
#
# A text that is refused has `@` before the first token that no attempt takes. At its end the token is the next of what stands around
# it, or there is none; `@@` is at the end of that, where all tokens are taken.

NAMED_ITEMS = """
const A = 1;
    Name 6 7 0 0                    A
    Literal 10 11 0 1 10            1
    Const 0 12 2 0                  const A = 1;
const A = f( );
    Name 6 7 0 0                    A
    Identifier 10 11 0 0            f
    Call 10 13 1 0                  f(
    Const 0 15 2 0                  const A = f( );
"""

NAMED_VALUES = """
0x1felt
    LiteralFelt 10 17 0 1 16        0x1felt
18446744073709551615
    Literal 10 30 0 18446744073709551615 10 18446744073709551615
"""

NAMED_BODIES = """
if (x) {}
    Identifier 13 14 0 0            x
    Block 16 18 0 0                 {}
    If 9 18 2 0                     if (x) {}
a || b && c;
    Identifier 9 10 0 0             a
    Identifier 14 15 0 0            b
    Binary 9 15 2 12                a || b
    Identifier 19 20 0 0            c
    Binary 9 20 2 11                a || b && c
    ExprStmt 9 21 1 0               a || b && c;
12u8;
    Literal 9 13 0 12 10            12u8
    ExprStmt 9 14 1 0               12u8;
if a [12u8, 1];
    Identifier 12 13 0 0            a
    Literal 15 19 0 12 10           12u8
    Literal 21 22 0 1 10            1
    Array 14 23 2 0                 [12u8, 1]
    ExprStmt 14 24 1 0              [12u8, 1];
    If 9 24 2 0                     if a [12u8, 1];
"""

NAMED_REFUSED_BODIES = """
if x {}@
let (a@) = b;
[1; 3u32]@;
if (a) @== (b) {}
"""

TYPES = """
felt
    Named 9 13 0 0                  felt
bool
    Named 9 13 0 1                  bool
u32
    Named 9 12 0 2                  u32
Point
    Named 9 14 0 3                  Point
Felt
    Named 9 13 0 3                  Felt
felt2
    Named 9 14 0 3                  felt2
u3
    Named 9 11 0 3                  u3
T*
    Named 9 10 0 3                  T
    Pointer 9 11 1 0                T*
felt**
    Named 9 13 0 0                  felt
    Pointer 9 14 1 0                felt*
    Pointer 9 15 1 0                felt**
T * *
    Named 9 10 0 3                  T
    Pointer 9 12 1 0                T *
    Pointer 9 14 1 0                T * *
()
    TypeTuple 9 11 0 0              ()
(,)
    TypeTuple 9 12 0 0              (,)
(T)
    Named 10 11 0 3                 T
(T,)
    Named 10 11 0 3                 T
    TypeTuple 9 13 1 0              (T,)
(A, B)
    Named 10 11 0 3                 A
    Named 13 14 0 3                 B
    TypeTuple 9 15 2 0              (A, B)
(A, B,)
    Named 10 11 0 3                 A
    Named 13 14 0 3                 B
    TypeTuple 9 16 2 0              (A, B,)
((A))
    Named 11 12 0 3                 A
((A),)
    Named 11 12 0 3                 A
    TypeTuple 9 15 1 0              ((A),)
(T)*
    Named 10 11 0 3                 T
    Pointer 10 13 1 0               T)*
((T)*)*
    Named 11 12 0 3                 T
    Pointer 11 14 1 0               T)*
    Pointer 11 16 1 0               T)*)*
(T*)
    Named 10 11 0 3                 T
    Pointer 10 12 1 0               T*
(T,)*
    Named 10 11 0 3                 T
    TypeTuple 9 13 1 0              (T,)
    Pointer 9 14 1 0                (T,)*
()*
    TypeTuple 9 11 0 0              ()
    Pointer 9 12 1 0                ()*
(A*, (B, ()))
    Named 10 11 0 3                 A
    Pointer 10 12 1 0               A*
    Named 15 16 0 3                 B
    TypeTuple 18 20 0 0             ()
    TypeTuple 14 21 2 0             (B, ())
    TypeTuple 9 22 2 0              (A*, (B, ()))
[T; 3]
    Named 10 11 0 3                 T
    Count 13 14 0 3 10              3
    FixedArray 9 15 2 0             [T; 3]
[[u32; 2]; 0x10]
    Named 11 14 0 2                 u32
    Count 16 17 0 2 10              2
    FixedArray 10 18 2 0            [u32; 2]
    Count 20 24 0 16 16             0x10
    FixedArray 9 25 2 0             [[u32; 2]; 0x10]
[T; 3]*
    Named 10 11 0 3                 T
    Count 13 14 0 3 10              3
    FixedArray 9 15 2 0             [T; 3]
    Pointer 9 16 1 0                [T; 3]*
[(T,)*; 1]
    Named 11 12 0 3                 T
    TypeTuple 10 14 1 0             (T,)
    Pointer 10 15 1 0               (T,)*
    Count 17 18 0 1 10              1
    FixedArray 9 19 2 0             [(T,)*; 1]
([T; 1])*
    Named 11 12 0 3                 T
    Count 14 15 0 1 10              1
    FixedArray 10 16 2 0            [T; 1]
    Pointer 10 18 1 0               [T; 1])*
[bool; 18446744073709551615]
    Named 10 14 0 1                 bool
    Count 16 36 0 18446744073709551615 10 18446744073709551615
    FixedArray 9 37 2 0             [bool; 18446744073709551615]
[felt; 0x3]
    Named 10 14 0 0                 felt
    Count 16 19 0 3 16              0x3
    FixedArray 9 20 2 0             [felt; 0x3]
[[T; 0B11]; 0O17]
    Named 11 12 0 3                 T
    Count 14 18 0 3 2               0B11
    FixedArray 10 19 2 0            [T; 0B11]
    Count 21 25 0 15 8              0O17
    FixedArray 9 26 2 0             [[T; 0B11]; 0O17]
"""

REFUSED_TYPES = """
[T; 3u32@]
[T; 3felt@]
[T; 3u8@]
[T; 0x3u32@]
[T; (3)@]
[T; 3 + 1@]
[T; -3@]
[T; n@]
[T; f()@]
[T; @]
[T@]
[@]
[T@, 3]
[@; 3]
[T; 3@; 4]
[T; 3@
(T@
(A @B)
(A,@,)
(,@A)
(,@,)
(A@; B)
@*T
T@[3]
T @T
T*@T
a@::b
@&T
@5
@true
@fn
"""

ALLOCATIONS = """
new T[n]
    Named 14 15 0 3                 T
    Identifier 16 17 0 0            n
    New 10 18 2 0                   new T[n]
new felt*[1]
    Named 14 18 0 0                 felt
    Pointer 14 19 1 0               felt*
    Literal 20 21 0 1 10            1
    New 10 22 2 0                   new felt*[1]
new (T)[1]
    Named 15 16 0 3                 T
    Literal 18 19 0 1 10            1
    New 10 20 2 0                   new (T)[1]
new (T)*[1]
    Named 15 16 0 3                 T
    Pointer 15 18 1 0               T)*
    Literal 19 20 0 1 10            1
    New 10 21 2 0                   new (T)*[1]
new (T,)[1]
    Named 15 16 0 3                 T
    TypeTuple 14 18 1 0             (T,)
    Literal 19 20 0 1 10            1
    New 10 21 2 0                   new (T,)[1]
new ()[1]
    TypeTuple 14 16 0 0             ()
    Literal 17 18 0 1 10            1
    New 10 19 2 0                   new ()[1]
new (,)[1]
    TypeTuple 14 17 0 0             (,)
    Literal 18 19 0 1 10            1
    New 10 20 2 0                   new (,)[1]
new (A, (B)*)[n][0]
    Named 15 16 0 3                 A
    Named 19 20 0 3                 B
    Pointer 19 22 1 0               B)*
    TypeTuple 14 23 2 0             (A, (B)*)
    Identifier 24 25 0 0            n
    New 10 26 2 0                   new (A, (B)*)[n]
    Literal 27 28 0 0 10            0
    Index 10 28 2 0                 new (A, (B)*)[n][0
new (u32, T,)[f(a)].x
    Named 15 18 0 2                 u32
    Named 20 21 0 3                 T
    TypeTuple 14 23 2 0             (u32, T,)
    Identifier 24 25 0 0            f
    Identifier 26 27 0 0            a
    Call 24 27 2 0                  f(a
    New 10 29 2 0                   new (u32, T,)[f(a)]
    Name 30 31 0 0                  x
    Member 10 31 2 0                new (u32, T,)[f(a)].x
new bool[1] as felt
    Named 14 18 0 1                 bool
    Literal 19 20 0 1 10            1
    New 10 21 2 0                   new bool[1]
    Named 25 29 0 0                 felt
    Cast 10 29 2 0                  new bool[1] as felt
new T[0b1]
    Named 14 15 0 3                 T
    Literal 16 19 0 1 2             0b1
    New 10 20 2 0                   new T[0b1]
"""

REFUSED_ALLOCATIONS = """
new T@
new@
new T[@]
new T[1@, 2]
new T[1@; 2]
new T[1@
new T@(1)
new @[1]
new @[T; 1][1]
new (@[T;1],)[1]
new (A @B)[1]
new @5[1]
new @*T[1]
new @new T[1][1]
"""

CASTS = """
a as felt
    Identifier 10 11 0 0            a
    Named 15 19 0 0                 felt
    Cast 10 19 2 0                  a as felt
a as u32 as T
    Identifier 10 11 0 0            a
    Named 15 18 0 2                 u32
    Cast 10 18 2 0                  a as u32
    Named 22 23 0 3                 T
    Cast 10 23 2 0                  a as u32 as T
-a as bool
    Identifier 11 12 0 0            a
    Unary 10 12 1 1                 -a
    Named 16 20 0 1                 bool
    Cast 10 20 2 0                  -a as bool
-(a as T)
    Identifier 12 13 0 0            a
    Named 17 18 0 3                 T
    Cast 12 18 2 0                  a as T
    Paren 11 19 1 0                 (a as T)
    Unary 10 19 1 1                 -(a as T)
a as felt * b as felt
    Identifier 10 11 0 0            a
    Named 15 19 0 0                 felt
    Cast 10 19 2 0                  a as felt
    Identifier 22 23 0 0            b
    Named 27 31 0 0                 felt
    Cast 22 31 2 0                  b as felt
    Binary 10 31 2 2                a as felt * b as felt
a as T* b
    Identifier 10 11 0 0            a
    Named 15 16 0 3                 T
    Cast 10 16 2 0                  a as T
    Identifier 18 19 0 0            b
    Binary 10 19 2 2                a as T* b
"""

REFUSED_CASTS = """
a as@
@as T
a as @(T)
a as @(T, T)
a as @[T; 1]
a as T*@
a as @5
a as @true
a as T@.b
a as T@()
"""

LITERALS = """
0
    Literal 10 11 0 0 10            0
007
    Literal 10 13 0 7 10            007
42felt
    LiteralFelt 10 16 0 42 10       42felt
42u32
    LiteralU32 10 15 0 42 10        42u32
42u8
    Literal 10 14 0 42 10           42u8
1_0
    Literal 10 13 0 1 10            1_0
0xff
    Literal 10 14 0 255 16          0xff
0b101u32
    LiteralU32 10 18 0 5 2          0b101u32
0o17felt
    LiteralFelt 10 18 0 15 8        0o17felt
0b101
    Literal 10 15 0 5 2             0b101
0o17
    Literal 10 14 0 15 8            0o17
0XfF
    Literal 10 14 0 255 16          0XfF
0B1
    Literal 10 13 0 1 2             0B1
0O7felt
    LiteralFelt 10 17 0 7 8         0O7felt
0x10u32
    LiteralU32 10 17 0 16 16        0x10u32
0Xbfelt
    LiteralFelt 10 17 0 11 16       0Xbfelt
0b1b
    Literal 10 14 0 1 2             0b1b
0_x
    Literal 10 13 0 0 10            0_x
00x1
    Literal 10 14 0 0 10            00x1
18446744073709551615felt
    LiteralFelt 10 34 0 18446744073709551615 10 18446744073709551615felt
18446744073709551615u32
    LiteralU32 10 33 0 18446744073709551615 10 18446744073709551615u32
18446744073709551615x
    Literal 10 31 0 18446744073709551615 10 18446744073709551615x
true
    Bool 10 14 0 1                  true
false
    Bool 10 15 0 0                  false
x
    Identifier 10 11 0 0            x
felt
    Identifier 10 14 0 0            felt
"""

PREFIXES = """
!a
    Identifier 11 12 0 0            a
    Unary 10 12 1 0                 !a
-a
    Identifier 11 12 0 0            a
    Unary 10 12 1 1                 -a
!-x
    Identifier 12 13 0 0            x
    Unary 11 13 1 1                 -x
    Unary 10 13 1 0                 !-x
--1
    Literal 12 13 0 1 10            1
    Unary 11 13 1 1                 -1
    Unary 10 13 1 1                 --1
- ! - 1
    Literal 16 17 0 1 10            1
    Unary 14 17 1 1                 - 1
    Unary 12 17 1 0                 ! - 1
    Unary 10 17 1 1                 - ! - 1
-f(x)
    Identifier 11 12 0 0            f
    Identifier 13 14 0 0            x
    Call 11 14 2 0                  f(x
    Unary 10 14 1 1                 -f(x
!a.b
    Identifier 11 12 0 0            a
    Name 13 14 0 0                  b
    Member 11 14 2 0                a.b
    Unary 10 14 1 0                 !a.b
-a[i]
    Identifier 11 12 0 0            a
    Identifier 13 14 0 0            i
    Index 11 14 2 0                 a[i
    Unary 10 14 1 1                 -a[i
a - -b
    Identifier 10 11 0 0            a
    Identifier 15 16 0 0            b
    Unary 14 16 1 1                 -b
    Binary 10 16 2 1                a - -b
-a * !b
    Identifier 11 12 0 0            a
    Unary 10 12 1 1                 -a
    Identifier 16 17 0 0            b
    Unary 15 17 1 0                 !b
    Binary 10 17 2 2                -a * !b
-(a)
    Identifier 12 13 0 0            a
    Paren 11 14 1 0                 (a)
    Unary 10 14 1 1                 -(a)
"""

OPERATORS = """
a + b
    Identifier 10 11 0 0            a
    Identifier 14 15 0 0            b
    Binary 10 15 2 0                a + b
a - b
    Identifier 10 11 0 0            a
    Identifier 14 15 0 0            b
    Binary 10 15 2 1                a - b
a * b
    Identifier 10 11 0 0            a
    Identifier 14 15 0 0            b
    Binary 10 15 2 2                a * b
a / b
    Identifier 10 11 0 0            a
    Identifier 14 15 0 0            b
    Binary 10 15 2 3                a / b
a % b
    Identifier 10 11 0 0            a
    Identifier 14 15 0 0            b
    Binary 10 15 2 4                a % b
a == b
    Identifier 10 11 0 0            a
    Identifier 15 16 0 0            b
    Binary 10 16 2 5                a == b
a != b
    Identifier 10 11 0 0            a
    Identifier 15 16 0 0            b
    Binary 10 16 2 6                a != b
a < b
    Identifier 10 11 0 0            a
    Identifier 14 15 0 0            b
    Binary 10 15 2 7                a < b
a > b
    Identifier 10 11 0 0            a
    Identifier 14 15 0 0            b
    Binary 10 15 2 8                a > b
a <= b
    Identifier 10 11 0 0            a
    Identifier 15 16 0 0            b
    Binary 10 16 2 9                a <= b
a >= b
    Identifier 10 11 0 0            a
    Identifier 15 16 0 0            b
    Binary 10 16 2 10               a >= b
a && b
    Identifier 10 11 0 0            a
    Identifier 15 16 0 0            b
    Binary 10 16 2 11               a && b
a || b
    Identifier 10 11 0 0            a
    Identifier 15 16 0 0            b
    Binary 10 16 2 12               a || b
a & b
    Identifier 10 11 0 0            a
    Identifier 14 15 0 0            b
    Binary 10 15 2 13               a & b
a | b
    Identifier 10 11 0 0            a
    Identifier 14 15 0 0            b
    Binary 10 15 2 14               a | b
a ^ b
    Identifier 10 11 0 0            a
    Identifier 14 15 0 0            b
    Binary 10 15 2 15               a ^ b
"""

LEVELS = """
a - b - c
    Identifier 10 11 0 0            a
    Identifier 14 15 0 0            b
    Binary 10 15 2 1                a - b
    Identifier 18 19 0 0            c
    Binary 10 19 2 1                a - b - c
a * b / c % d
    Identifier 10 11 0 0            a
    Identifier 14 15 0 0            b
    Binary 10 15 2 2                a * b
    Identifier 18 19 0 0            c
    Binary 10 19 2 3                a * b / c
    Identifier 22 23 0 0            d
    Binary 10 23 2 4                a * b / c % d
a + b * c
    Identifier 10 11 0 0            a
    Identifier 14 15 0 0            b
    Identifier 18 19 0 0            c
    Binary 14 19 2 2                b * c
    Binary 10 19 2 0                a + b * c
a * b + c
    Identifier 10 11 0 0            a
    Identifier 14 15 0 0            b
    Binary 10 15 2 2                a * b
    Identifier 18 19 0 0            c
    Binary 10 19 2 0                a * b + c
a < b < c
    Identifier 10 11 0 0            a
    Identifier 14 15 0 0            b
    Binary 10 15 2 7                a < b
    Identifier 18 19 0 0            c
    Binary 10 19 2 7                a < b < c
a == b != c
    Identifier 10 11 0 0            a
    Identifier 15 16 0 0            b
    Binary 10 16 2 5                a == b
    Identifier 20 21 0 0            c
    Binary 10 21 2 6                a == b != c
a <= b >= c > d
    Identifier 10 11 0 0            a
    Identifier 15 16 0 0            b
    Binary 10 16 2 9                a <= b
    Identifier 20 21 0 0            c
    Binary 10 21 2 10               a <= b >= c
    Identifier 24 25 0 0            d
    Binary 10 25 2 8                a <= b >= c > d
a + b < c
    Identifier 10 11 0 0            a
    Identifier 14 15 0 0            b
    Binary 10 15 2 0                a + b
    Identifier 18 19 0 0            c
    Binary 10 19 2 7                a + b < c
a < b + c
    Identifier 10 11 0 0            a
    Identifier 14 15 0 0            b
    Identifier 18 19 0 0            c
    Binary 14 19 2 0                b + c
    Binary 10 19 2 7                a < b + c
a & b == c
    Identifier 10 11 0 0            a
    Identifier 14 15 0 0            b
    Identifier 19 20 0 0            c
    Binary 14 20 2 5                b == c
    Binary 10 20 2 13               a & b == c
a == b & c
    Identifier 10 11 0 0            a
    Identifier 15 16 0 0            b
    Binary 10 16 2 5                a == b
    Identifier 19 20 0 0            c
    Binary 10 20 2 13               a == b & c
a | b & c ^ d
    Identifier 10 11 0 0            a
    Identifier 14 15 0 0            b
    Binary 10 15 2 14               a | b
    Identifier 18 19 0 0            c
    Binary 10 19 2 13               a | b & c
    Identifier 22 23 0 0            d
    Binary 10 23 2 15               a | b & c ^ d
a && b || c && d
    Identifier 10 11 0 0            a
    Identifier 15 16 0 0            b
    Binary 10 16 2 11               a && b
    Identifier 20 21 0 0            c
    Binary 10 21 2 12               a && b || c
    Identifier 25 26 0 0            d
    Binary 10 26 2 11               a && b || c && d
a && b | c
    Identifier 10 11 0 0            a
    Identifier 15 16 0 0            b
    Identifier 19 20 0 0            c
    Binary 15 20 2 14               b | c
    Binary 10 20 2 11               a && b | c
a | b && c
    Identifier 10 11 0 0            a
    Identifier 14 15 0 0            b
    Binary 10 15 2 14               a | b
    Identifier 19 20 0 0            c
    Binary 10 20 2 11               a | b && c
a || b | c == d + e * f as T
    Identifier 10 11 0 0            a
    Identifier 15 16 0 0            b
    Identifier 19 20 0 0            c
    Identifier 24 25 0 0            d
    Identifier 28 29 0 0            e
    Identifier 32 33 0 0            f
    Named 37 38 0 3                 T
    Cast 32 38 2 0                  f as T
    Binary 28 38 2 2                e * f as T
    Binary 24 38 2 0                d + e * f as T
    Binary 19 38 2 5                c == d + e * f as T
    Binary 15 38 2 14               b | c == d + e * f as T
    Binary 10 38 2 12               a || b | c == d + e * f as T
f as T * e + d == c | b || a
    Identifier 10 11 0 0            f
    Named 15 16 0 3                 T
    Cast 10 16 2 0                  f as T
    Identifier 19 20 0 0            e
    Binary 10 20 2 2                f as T * e
    Identifier 23 24 0 0            d
    Binary 10 24 2 0                f as T * e + d
    Identifier 28 29 0 0            c
    Binary 10 29 2 5                f as T * e + d == c
    Identifier 32 33 0 0            b
    Binary 10 33 2 14               f as T * e + d == c | b
    Identifier 37 38 0 0            a
    Binary 10 38 2 12               f as T * e + d == c | b || a
(a + b) * c
    Identifier 11 12 0 0            a
    Identifier 15 16 0 0            b
    Binary 11 16 2 0                a + b
    Paren 10 17 1 0                 (a + b)
    Identifier 20 21 0 0            c
    Binary 10 21 2 2                (a + b) * c
a - (b - c)
    Identifier 10 11 0 0            a
    Identifier 15 16 0 0            b
    Identifier 19 20 0 0            c
    Binary 15 20 2 1                b - c
    Paren 14 21 1 0                 (b - c)
    Binary 10 21 2 1                a - (b - c)
a + b[i]
    Identifier 10 11 0 0            a
    Identifier 14 15 0 0            b
    Identifier 16 17 0 0            i
    Index 14 17 2 0                 b[i
    Binary 10 17 2 0                a + b[i
"""

REFUSED_OPERATIONS = """
!@
-@
a@!
a -@
@+a
@*a
@&a
a + @* b
a + @+ b
a *@* b
a <@> b
a @=> b
a ==@= b
a @-> b
a @= b
a @b
a@, b
a @: b
"""

CALLS = """
f()
    Identifier 10 11 0 0            f
    Call 10 13 1 0                  f()
f (    )
    Identifier 10 11 0 0            f
    Call 10 13 1 0                  f (
f(a)
    Identifier 10 11 0 0            f
    Identifier 12 13 0 0            a
    Call 10 13 2 0                  f(a
f(a, b)
    Identifier 10 11 0 0            f
    Identifier 12 13 0 0            a
    Identifier 15 16 0 0            b
    Call 10 16 3 0                  f(a, b
f(a, b,)
    Identifier 10 11 0 0            f
    Identifier 12 13 0 0            a
    Identifier 15 16 0 0            b
    Call 10 16 3 0                  f(a, b
f((a))
    Identifier 10 11 0 0            f
    Identifier 13 14 0 0            a
    Paren 12 15 1 0                 (a)
    Call 10 15 2 0                  f((a)
f()()
    Identifier 10 11 0 0            f
    Call 10 13 1 0                  f()
    Call 10 15 1 0                  f()()
f(a)()
    Identifier 10 11 0 0            f
    Identifier 12 13 0 0            a
    Call 10 13 2 0                  f(a
    Call 10 15 1 0                  f(a)(
(f)( )
    Identifier 11 12 0 0            f
    Paren 10 13 1 0                 (f)
    Call 10 15 1 0                  (f)(
f(g(h()))
    Identifier 10 11 0 0            f
    Identifier 12 13 0 0            g
    Identifier 14 15 0 0            h
    Call 14 17 1 0                  h()
    Call 12 17 2 0                  g(h()
    Call 10 17 2 0                  f(g(h()
f(a + b, -c)
    Identifier 10 11 0 0            f
    Identifier 12 13 0 0            a
    Identifier 16 17 0 0            b
    Binary 12 17 2 0                a + b
    Identifier 20 21 0 0            c
    Unary 19 21 1 1                 -c
    Call 10 21 3 0                  f(a + b, -c
f{}()
    Name 10 11 0 0                  f
    StructLiteral 10 13 1 0         f{}
    Call 10 15 1 0                  f{}()
1(2)
    Literal 10 11 0 1 10            1
    Literal 12 13 0 2 10            2
    Call 10 13 2 0                  1(2
true()
    Bool 10 14 0 1                  true
    Call 10 16 1 0                  true()
"""

REFUSED_CALLS = """
f(@
f@)
f(@,)
f(a @b)
f(a,@,b)
f(@,a)
f(a@;)
f(a@: b)
f(@let)
"""

PARTS = """
a.b
    Identifier 10 11 0 0            a
    Name 12 13 0 0                  b
    Member 10 13 2 0                a.b
a . b
    Identifier 10 11 0 0            a
    Name 14 15 0 0                  b
    Member 10 15 2 0                a . b
a.b.c
    Identifier 10 11 0 0            a
    Name 12 13 0 0                  b
    Member 10 13 2 0                a.b
    Name 14 15 0 0                  c
    Member 10 15 2 0                a.b.c
a[i]
    Identifier 10 11 0 0            a
    Identifier 12 13 0 0            i
    Index 10 13 2 0                 a[i
a [ i ]
    Identifier 10 11 0 0            a
    Identifier 14 15 0 0            i
    Index 10 15 2 0                 a [ i
a[i][j]
    Identifier 10 11 0 0            a
    Identifier 12 13 0 0            i
    Index 10 13 2 0                 a[i
    Identifier 15 16 0 0            j
    Index 10 16 2 0                 a[i][j
a[b[i]]
    Identifier 10 11 0 0            a
    Identifier 12 13 0 0            b
    Identifier 14 15 0 0            i
    Index 12 15 2 0                 b[i
    Index 10 15 2 0                 a[b[i
a[i] + b
    Identifier 10 11 0 0            a
    Identifier 12 13 0 0            i
    Index 10 13 2 0                 a[i
    Identifier 17 18 0 0            b
    Binary 10 18 2 0                a[i] + b
t.0
    Identifier 10 11 0 0            t
    TupleIndex 10 13 1 0            t.0
t.12
    Identifier 10 11 0 0            t
    TupleIndex 10 14 1 12           t.12
t.0x1f
    Identifier 10 11 0 0            t
    TupleIndex 10 16 1 31           t.0x1f
t.0x1
    Identifier 10 11 0 0            t
    TupleIndex 10 15 1 1            t.0x1
t.0B10.0o7
    Identifier 10 11 0 0            t
    TupleIndex 10 16 1 2            t.0B10
    TupleIndex 10 20 1 7            t.0B10.0o7
a[0x1]
    Identifier 10 11 0 0            a
    Literal 12 15 0 1 16            0x1
    Index 10 15 2 0                 a[0x1
t.0.1
    Identifier 10 11 0 0            t
    TupleIndex 10 13 1 0            t.0
    TupleIndex 10 15 1 1            t.0.1
t.18446744073709551615
    Identifier 10 11 0 0            t
    TupleIndex 10 32 1 18446744073709551615 t.18446744073709551615
o.m(a, b)[i].0
    Identifier 10 11 0 0            o
    Name 12 13 0 0                  m
    Member 10 13 2 0                o.m
    Identifier 14 15 0 0            a
    Identifier 17 18 0 0            b
    Call 10 18 3 0                  o.m(a, b
    Identifier 20 21 0 0            i
    Index 10 21 2 0                 o.m(a, b)[i
    TupleIndex 10 24 1 0            o.m(a, b)[i].0
f( ).b
    Identifier 10 11 0 0            f
    Call 10 13 1 0                  f(
    Name 15 16 0 0                  b
    Member 10 16 2 0                f( ).b
(a, b).0
    Identifier 11 12 0 0            a
    Identifier 14 15 0 0            b
    Tuple 10 16 2 0                 (a, b)
    TupleIndex 10 18 1 0            (a, b).0
[1, 2][0]
    Literal 11 12 0 1 10            1
    Literal 14 15 0 2 10            2
    Array 10 16 2 0                 [1, 2]
    Literal 17 18 0 0 10            0
    Index 10 18 2 0                 [1, 2][0
P {}.x
    Name 10 11 0 0                  P
    StructLiteral 10 14 1 0         P {}
    Name 15 16 0 0                  x
    Member 10 16 2 0                P {}.x
1.a
    Literal 10 11 0 1 10            1
    Name 12 13 0 0                  a
    Member 10 13 2 0                1.a
"""

REFUSED_PARTS = """
t.0u32@
t.0felt@
t.0u8@
t.0x0u32@
t.@-1
a.@
@.a
a.@.b
a.@(b)
a.@[i]
a.@true
a.@if
a[@]
a[i@
a[i@, j]
a[1@; 2]
a@::b
a@->b
"""

STRUCT_LITERALS = """
P {}
    Name 10 11 0 0                  P
    StructLiteral 10 14 1 0         P {}
P { x: 1 }
    Name 10 11 0 0                  P
    Name 14 15 0 0                  x
    Literal 17 18 0 1 10            1
    StructLiteral 10 20 3 0         P { x: 1 }
P { x: 1, }
    Name 10 11 0 0                  P
    Name 14 15 0 0                  x
    Literal 17 18 0 1 10            1
    StructLiteral 10 21 3 0         P { x: 1, }
P { x: 1, y: a + b }
    Name 10 11 0 0                  P
    Name 14 15 0 0                  x
    Literal 17 18 0 1 10            1
    Name 20 21 0 0                  y
    Identifier 23 24 0 0            a
    Identifier 27 28 0 0            b
    Binary 23 28 2 0                a + b
    StructLiteral 10 30 5 0         P { x: 1, y: a + b }
P { q: Q { r: 1 } }
    Name 10 11 0 0                  P
    Name 14 15 0 0                  q
    Name 17 18 0 0                  Q
    Name 21 22 0 0                  r
    Literal 24 25 0 1 10            1
    StructLiteral 17 27 3 0         Q { r: 1 }
    StructLiteral 10 29 3 0         P { q: Q { r: 1 } }
"""

REFUSED_STRUCT_LITERALS = """
P {@
P { x @}
P { x: @}
P { @, }
P { x: 1@
P { x: 1 @y: 2 }
P { x: 1,@, }
P { x @= 1 }
P { @1: x }
P { x: 1@; }
(P) @{}
P {} @{}
1 @{}
@{ x: 1 }
"""

TUPLES = """
()
    Tuple 10 12 0 0                 ()
( )
    Tuple 10 13 0 0                 ( )
(a)
    Identifier 11 12 0 0            a
    Paren 10 13 1 0                 (a)
(a,)
    Identifier 11 12 0 0            a
    Tuple 10 14 1 0                 (a,)
(a, b)
    Identifier 11 12 0 0            a
    Identifier 14 15 0 0            b
    Tuple 10 16 2 0                 (a, b)
(a, b,)
    Identifier 11 12 0 0            a
    Identifier 14 15 0 0            b
    Tuple 10 17 2 0                 (a, b,)
(a, b, c)
    Identifier 11 12 0 0            a
    Identifier 14 15 0 0            b
    Identifier 17 18 0 0            c
    Tuple 10 19 3 0                 (a, b, c)
((a))
    Identifier 12 13 0 0            a
    Paren 11 14 1 0                 (a)
    Paren 10 15 1 0                 ((a))
((a, b), ())
    Identifier 12 13 0 0            a
    Identifier 15 16 0 0            b
    Tuple 11 17 2 0                 (a, b)
    Tuple 19 21 0 0                 ()
    Tuple 10 22 2 0                 ((a, b), ())
"""

ARRAYS = """
[]
    Array 10 12 0 0                 []
[1]
    Literal 11 12 0 1 10            1
    Array 10 13 1 0                 [1]
[1,]
    Literal 11 12 0 1 10            1
    Array 10 14 1 0                 [1,]
[1, a]
    Literal 11 12 0 1 10            1
    Identifier 14 15 0 0            a
    Array 10 16 2 0                 [1, a]
[1, a,]
    Literal 11 12 0 1 10            1
    Identifier 14 15 0 0            a
    Array 10 17 2 0                 [1, a,]
[[], [1]]
    Array 11 13 0 0                 []
    Literal 16 17 0 1 10            1
    Array 15 18 1 0                 [1]
    Array 10 19 2 0                 [[], [1]]
[1; 3]
    Literal 11 12 0 1 10            1
    Count 14 15 0 3 10              3
    ArrayRepeat 10 16 2 0           [1; 3]
[1u32; 0]
    LiteralU32 11 15 0 1 10         1u32
    Count 17 18 0 0 10              0
    ArrayRepeat 10 19 2 0           [1u32; 0]
[12u8; 1]
    Literal 11 15 0 12 10           12u8
    Count 17 18 0 1 10              1
    ArrayRepeat 10 19 2 0           [12u8; 1]
[a + 1; 0x10]
    Identifier 11 12 0 0            a
    Literal 15 16 0 1 10            1
    Binary 11 16 2 0                a + 1
    Count 18 22 0 16 16             0x10
    ArrayRepeat 10 23 2 0           [a + 1; 0x10]
[[0; 2]; 3]
    Literal 12 13 0 0 10            0
    Count 15 16 0 2 10              2
    ArrayRepeat 11 17 2 0           [0; 2]
    Count 19 20 0 3 10              3
    ArrayRepeat 10 21 2 0           [[0; 2]; 3]
[[0; 2], [1]]
    Literal 12 13 0 0 10            0
    Count 15 16 0 2 10              2
    ArrayRepeat 11 17 2 0           [0; 2]
    Literal 20 21 0 1 10            1
    Array 19 22 1 0                 [1]
    Array 10 23 2 0                 [[0; 2], [1]]
[1; 0b11]
    Literal 11 12 0 1 10            1
    Count 14 18 0 3 2               0b11
    ArrayRepeat 10 19 2 0           [1; 0b11]
[0x1felt; 0O7]
    LiteralFelt 11 18 0 1 16        0x1felt
    Count 20 23 0 7 8               0O7
    ArrayRepeat 10 24 2 0           [0x1felt; 0O7]
[1, 0x1, 0o1, 0b1, true, a]
    Literal 11 12 0 1 10            1
    Literal 14 17 0 1 16            0x1
    Literal 19 22 0 1 8             0o1
    Literal 24 27 0 1 2             0b1
    Bool 29 33 0 1                  true
    Identifier 35 36 0 0            a
    Array 10 37 6 0                 [1, 0x1, 0o1, 0b1, true, a]
"""

REFUSED_TUPLES_AND_ARRAYS = """
(@
@)
(@,)
(a@
a@)
(a @b)
(a,@,)
(@,a)
(a@;)
(a, b@
(a, b@]
[@
@]
[@,]
[1@@
[1 @2]
[1,@,2]
[@,1]
[1; 3u32]@
[1; 3felt]@
[1; 3u8]@
[1; 0b11felt]@
[1; @n]
[1; @(3)]
[1; 3 @+ 1]
[1; @-3]
[1; @]
[1; 3@
[@; 3]
[1, 2@; 3]
[1; 2@; 3]
[1; 2@, 3]
[1; 3@,]
@in
_ @_
@let
@fn
"""

PATTERNS = """
let a = b;
    Name 13 14 0 0                  a
    Identifier 17 18 0 0            b
    Let 9 19 2 0                    let a = b;
let a: felt = 1;
    Name 13 14 0 0                  a
    Named 16 20 0 0                 felt
    Literal 23 24 0 1 10            1
    Let 9 25 3 1                    let a: felt = 1;
let (a, b) = c;
    Name 14 15 0 0                  a
    Name 17 18 0 0                  b
    PatternTuple 0 0 2 0
    Identifier 22 23 0 0            c
    Let 9 24 2 0                    let (a, b) = c;
let (a, b): (felt, T) = c;
    Name 14 15 0 0                  a
    Name 17 18 0 0                  b
    PatternTuple 0 0 2 0
    Named 22 26 0 0                 felt
    Named 28 29 0 3                 T
    TypeTuple 21 30 2 0             (felt, T)
    Identifier 33 34 0 0            c
    Let 9 35 3 1                    let (a, b): (felt, T) = c;
let ((a, b), c, (d, e)) = f;
    Name 15 16 0 0                  a
    Name 18 19 0 0                  b
    PatternTuple 0 0 2 0
    Name 22 23 0 0                  c
    Name 26 27 0 0                  d
    Name 29 30 0 0                  e
    PatternTuple 0 0 2 0
    PatternTuple 0 0 3 0
    Identifier 35 36 0 0            f
    Let 9 37 2 0                    let ((a, b), c, (d, e)) = f;
"""

REFUSED_PATTERNS = """
let (@) = b;
let (a,@) = b;
let (a, b,@) = c;
let (a @b) = c;
let (a, @1) = c;
let ((a@), b) = c;
let (a, b @= c;
let @[a, b] = c;
let @1 = b;
let @true = b;
let @in = b;
let a@.b = c;
let P @{ a } = b;
let a@;
let a = @;
let a: @= b;
let a: T@;
let a @b = c;
let a = b@
let a @== b;
let @= b;
let mut @a = b;
"""

CONDITIONALS = """
if (a) b;
    Identifier 13 14 0 0            a
    Identifier 16 17 0 0            b
    ExprStmt 16 18 1 0              b;
    If 9 18 2 0                     if (a) b;
if (a) {} else {}
    Identifier 13 14 0 0            a
    Block 16 18 0 0                 {}
    Block 24 26 0 0                 {}
    If 9 26 3 0                     if (a) {} else {}
if (a) b; else c;
    Identifier 13 14 0 0            a
    Identifier 16 17 0 0            b
    ExprStmt 16 18 1 0              b;
    Identifier 24 25 0 0            c
    ExprStmt 24 26 1 0              c;
    If 9 26 3 0                     if (a) b; else c;
if (a) if (b) {} else {}
    Identifier 13 14 0 0            a
    Identifier 20 21 0 0            b
    Block 23 25 0 0                 {}
    Block 31 33 0 0                 {}
    If 16 33 3 0                    if (b) {} else {}
    If 9 33 2 0                     if (a) if (b) {} else {}
if (a) { if (b) {} } else {}
    Identifier 13 14 0 0            a
    Identifier 22 23 0 0            b
    Block 25 27 0 0                 {}
    If 18 27 2 0                    if (b) {}
    Block 16 29 1 0                 { if (b) {} }
    Block 35 37 0 0                 {}
    If 9 37 3 0                     if (a) { if (b) {} } else {}
if (a) {} else if (b) {} else {}
    Identifier 13 14 0 0            a
    Block 16 18 0 0                 {}
    Identifier 28 29 0 0            b
    Block 31 33 0 0                 {}
    Block 39 41 0 0                 {}
    If 24 41 3 0                    if (b) {} else {}
    If 9 41 3 0                     if (a) {} else if (b) {} else {}
if true {}
    Bool 12 16 0 1                  true
    Block 17 19 0 0                 {}
    If 9 19 2 0                     if true {}
if a == 1 {}
    Identifier 12 13 0 0            a
    Literal 17 18 0 1 10            1
    Binary 12 18 2 5                a == 1
    Block 19 21 0 0                 {}
    If 9 21 2 0                     if a == 1 {}
if a == b { c; }
    Identifier 12 13 0 0            a
    Identifier 17 18 0 0            b
    Binary 12 18 2 5                a == b
    Identifier 21 22 0 0            c
    ExprStmt 21 23 1 0              c;
    Block 19 25 1 0                 { c; }
    If 9 25 2 0                     if a == b { c; }
if !f(a) {}
    Identifier 13 14 0 0            f
    Identifier 15 16 0 0            a
    Call 13 16 2 0                  f(a
    Unary 12 16 1 0                 !f(a
    Block 18 20 0 0                 {}
    If 9 20 2 0                     if !f(a) {}
if ((a)) {}
    Identifier 14 15 0 0            a
    Paren 13 16 1 0                 (a)
    Block 18 20 0 0                 {}
    If 9 20 2 0                     if ((a)) {}
if ((a) == (b)) {}
    Identifier 14 15 0 0            a
    Paren 13 16 1 0                 (a)
    Identifier 21 22 0 0            b
    Paren 20 23 1 0                 (b)
    Binary 13 23 2 5                (a) == (b)
    Block 25 27 0 0                 {}
    If 9 27 2 0                     if ((a) == (b)) {}
if (a, b) {}
    Identifier 13 14 0 0            a
    Identifier 16 17 0 0            b
    Tuple 12 18 2 0                 (a, b)
    Block 19 21 0 0                 {}
    If 9 21 2 0                     if (a, b) {}
if () {}
    Tuple 12 14 0 0                 ()
    Block 15 17 0 0                 {}
    If 9 17 2 0                     if () {}
if (a, b) == c { d; }
    Identifier 13 14 0 0            a
    Identifier 16 17 0 0            b
    Tuple 12 18 2 0                 (a, b)
    Identifier 22 23 0 0            c
    Binary 12 23 2 5                (a, b) == c
    Identifier 26 27 0 0            d
    ExprStmt 26 28 1 0              d;
    Block 24 30 1 0                 { d; }
    If 9 30 2 0                     if (a, b) == c { d; }
if (a) - b;
    Identifier 13 14 0 0            a
    Identifier 18 19 0 0            b
    Unary 16 19 1 1                 - b
    ExprStmt 16 20 1 0              - b;
    If 9 20 2 0                     if (a) - b;
if (a)(b);
    Identifier 13 14 0 0            a
    Identifier 16 17 0 0            b
    Paren 15 18 1 0                 (b)
    ExprStmt 15 19 1 0              (b);
    If 9 19 2 0                     if (a)(b);
if (a) [b];
    Identifier 13 14 0 0            a
    Identifier 17 18 0 0            b
    Array 16 19 1 0                 [b]
    ExprStmt 16 20 1 0              [b];
    If 9 20 2 0                     if (a) [b];
if a [b] {}
    Identifier 12 13 0 0            a
    Identifier 15 16 0 0            b
    Index 12 16 2 0                 a [b
    Block 18 20 0 0                 {}
    If 9 20 2 0                     if a [b] {}
if x { y; }
    Identifier 12 13 0 0            x
    Identifier 16 17 0 0            y
    ExprStmt 16 18 1 0              y;
    Block 14 20 1 0                 { y; }
    If 9 20 2 0                     if x { y; }
if x {} {}
    Name 12 13 0 0                  x
    StructLiteral 12 16 1 0         x {}
    Block 17 19 0 0                 {}
    If 9 19 2 0                     if x {} {}
if x { y: 1 } {}
    Name 12 13 0 0                  x
    Name 16 17 0 0                  y
    Literal 19 20 0 1 10            1
    StructLiteral 12 22 3 0         x { y: 1 }
    Block 23 25 0 0                 {}
    If 9 25 2 0                     if x { y: 1 } {}
"""

REFUSED_CONDITIONALS = """
if (a)@
if (a)@;
if @{}
if a@;
if@
if (a) {} else@
if (a) {} else@;
if (a) {} else {} @else {}
@else {}
if a {} @else {}
if a == b {}@
if (a) @+ b {}
if (a) @&& (b) {}
if (a)@.b {}
if a [b]@;
if a (b)@;
if a - b@;
if (a {}@
if (a@; b) {}
if @let a = b {}
if (a @= b) {}
if x { y @}
"""

LOOPS = """
while (a) {}
    Identifier 16 17 0 0            a
    Block 19 21 0 0                 {}
    While 9 21 2 0                  while (a) {}
while true break;
    Bool 15 19 0 1                  true
    Break 20 26 0 0                 break;
    While 9 26 2 0                  while true break;
while x { x = x - 1; }
    Identifier 15 16 0 0            x
    Identifier 19 20 0 0            x
    Identifier 23 24 0 0            x
    Literal 27 28 0 1 10            1
    Binary 23 28 2 1                x - 1
    Assign 19 29 2 0                x = x - 1;
    Block 17 31 1 0                 { x = x - 1; }
    While 9 31 2 0                  while x { x = x - 1; }
while (a) while (b) c;
    Identifier 16 17 0 0            a
    Identifier 26 27 0 0            b
    Identifier 29 30 0 0            c
    ExprStmt 29 31 1 0              c;
    While 19 31 2 0                 while (b) c;
    While 9 31 2 0                  while (a) while (b) c;
loop {}
    Block 14 16 0 0                 {}
    Loop 9 16 1 0                   loop {}
loop break;
    Break 14 20 0 0                 break;
    Loop 9 20 1 0                   loop break;
loop loop continue ;
    Continue 19 29 0 0              continue ;
    Loop 14 29 1 0                  loop continue ;
    Loop 9 29 1 0                   loop loop continue ;
for (let i = 0; i < 9; i = i + 1) {}
    Name 18 19 0 0                  i
    Literal 22 23 0 0 10            0
    Let 14 24 2 0                   let i = 0;
    Identifier 25 26 0 0            i
    Literal 29 30 0 9 10            9
    Binary 25 30 2 7                i < 9
    Identifier 32 33 0 0            i
    Identifier 36 37 0 0            i
    Literal 40 41 0 1 10            1
    Binary 36 41 2 0                i + 1
    Assign 32 41 2 0                i = i + 1
    Block 43 45 0 0                 {}
    For 9 45 4 0                    for (let i = 0; i < 9; i = i + 1) {}
for (x; y; z) {}
    Identifier 14 15 0 0            x
    ExprStmt 14 16 1 0              x;
    Identifier 17 18 0 0            y
    Identifier 20 21 0 0            z
    ExprStmt 20 21 1 0              z
    Block 23 25 0 0                 {}
    For 9 25 4 0                    for (x; y; z) {}
for (i = 0; f(i); g(i)) break;
    Identifier 14 15 0 0            i
    Literal 18 19 0 0 10            0
    Assign 14 20 2 0                i = 0;
    Identifier 21 22 0 0            f
    Identifier 23 24 0 0            i
    Call 21 24 2 0                  f(i
    Identifier 27 28 0 0            g
    Identifier 29 30 0 0            i
    Call 27 30 2 0                  g(i
    ExprStmt 27 31 1 0              g(i)
    Break 33 39 0 0                 break;
    For 9 39 4 0                    for (i = 0; f(i); g(i)) break;
for (let (a, b): (T, T) = c; true; ()) {}
    Name 19 20 0 0                  a
    Name 22 23 0 0                  b
    PatternTuple 0 0 2 0
    Named 27 28 0 3                 T
    Named 30 31 0 3                 T
    TypeTuple 26 32 2 0             (T, T)
    Identifier 35 36 0 0            c
    Let 14 37 3 1                   let (a, b): (T, T) = c;
    Bool 38 42 0 1                  true
    Tuple 44 46 0 0                 ()
    ExprStmt 44 46 1 0              ()
    Block 48 50 0 0                 {}
    For 9 50 4 0                    for (let (a, b): (T, T) = c; true; ()) {}
for (x; y; z) for (a; b; c) d;
    Identifier 14 15 0 0            x
    ExprStmt 14 16 1 0              x;
    Identifier 17 18 0 0            y
    Identifier 20 21 0 0            z
    ExprStmt 20 21 1 0              z
    Identifier 28 29 0 0            a
    ExprStmt 28 30 1 0              a;
    Identifier 31 32 0 0            b
    Identifier 34 35 0 0            c
    ExprStmt 34 35 1 0              c
    Identifier 37 38 0 0            d
    ExprStmt 37 39 1 0              d;
    For 23 39 4 0                   for (a; b; c) d;
    For 9 39 4 0                    for (x; y; z) for (a; b; c) d;
"""

REFUSED_LOOPS = """
while x {}@
while (a) @== (b) {}
while (a)@;
while (a)@
while @{}
while@
loop@;
loop@
loop (a) @{
for (@;;) {}
for (@; y; z) {}
for (x; @; z) {}
for (x; y;@) {}
for (x; y@) {}
for (x; y; z@;) {}
for (x; y; z)@
for (x; y; z)@;
for (x; y; z {}@
for @x; y; z {}
for (x@, y, z) {}
for (@const A = 1; y; z) {}
for (let x@; y; z) {}
for (let x = 1@, y; z) {}
for (@break; y; z) {}
for (x; @let y = 1; z) {}
for (x; y @= 1; z) {}
for (x; y; @let z = 1) {}
for (x; y; z = 1@, w = 2) {}
for (@{} y; z) {}
for @i in x {}
for (i @in x) {}
"""

STATEMENTS = """
{}
    Block 9 11 0 0                  {}
{ {} a; }
    Block 11 13 0 0                 {}
    Identifier 14 15 0 0            a
    ExprStmt 14 16 1 0              a;
    Block 9 18 2 0                  { {} a; }
{} {}
    Block 9 11 0 0                  {}
    Block 12 14 0 0                 {}
break;
    Break 9 15 0 0                  break;
continue;
    Continue 9 18 0 0               continue;
return;
    Return 9 16 0 0                 return;
return a;
    Identifier 16 17 0 0            a
    Return 9 18 1 0                 return a;
return ();
    Tuple 16 18 0 0                 ()
    Return 9 19 1 0                 return ();
return x {};
    Name 16 17 0 0                  x
    StructLiteral 16 20 1 0         x {}
    Return 9 21 1 0                 return x {};
return (a, b);
    Identifier 17 18 0 0            a
    Identifier 20 21 0 0            b
    Tuple 16 22 2 0                 (a, b)
    Return 9 23 1 0                 return (a, b);
const A = 1;
    Name 15 16 0 0                  A
    Literal 19 20 0 1 10            1
    Const 9 21 2 0                  const A = 1;
const A: u32 = 1u32;
    Name 15 16 0 0                  A
    Named 18 21 0 2                 u32
    LiteralU32 24 28 0 1 10         1u32
    Const 9 29 3 1                  const A: u32 = 1u32;
a = b;
    Identifier 9 10 0 0             a
    Identifier 13 14 0 0            b
    Assign 9 15 2 0                 a = b;
m = m & 0xF0;
    Identifier 9 10 0 0             m
    Identifier 13 14 0 0            m
    Literal 17 21 0 240 16          0xF0
    Binary 13 21 2 13               m & 0xF0
    Assign 9 22 2 0                 m = m & 0xF0;
a.b[0] = f();
    Identifier 9 10 0 0             a
    Name 11 12 0 0                  b
    Member 9 12 2 0                 a.b
    Literal 13 14 0 0 10            0
    Index 9 14 2 0                  a.b[0
    Identifier 18 19 0 0            f
    Call 18 21 1 0                  f()
    Assign 9 22 2 0                 a.b[0] = f();
1 = 2;
    Literal 9 10 0 1 10             1
    Literal 13 14 0 2 10            2
    Assign 9 15 2 0                 1 = 2;
a + b = c;
    Identifier 9 10 0 0             a
    Identifier 13 14 0 0            b
    Binary 9 14 2 0                 a + b
    Identifier 17 18 0 0            c
    Assign 9 19 2 0                 a + b = c;
(a, b) = (b, a);
    Identifier 10 11 0 0            a
    Identifier 13 14 0 0            b
    Tuple 9 15 2 0                  (a, b)
    Identifier 19 20 0 0            b
    Identifier 22 23 0 0            a
    Tuple 18 24 2 0                 (b, a)
    Assign 9 25 2 0                 (a, b) = (b, a);
f();
    Identifier 9 10 0 0             f
    Call 9 12 1 0                   f()
    ExprStmt 9 13 1 0               f();
x {};
    Name 9 10 0 0                   x
    StructLiteral 9 13 1 0          x {}
    ExprStmt 9 14 1 0               x {};
x; {}
    Identifier 9 10 0 0             x
    ExprStmt 9 11 1 0               x;
    Block 12 14 0 0                 {}
new T[1];
    Named 13 14 0 3                 T
    Literal 15 16 0 1 10            1
    New 9 17 2 0                    new T[1]
    ExprStmt 9 18 1 0               new T[1];
let a = 1; a = 2; return a;
    Name 13 14 0 0                  a
    Literal 17 18 0 1 10            1
    Let 9 19 2 0                    let a = 1;
    Identifier 20 21 0 0            a
    Literal 24 25 0 2 10            2
    Assign 20 26 2 0                a = 2;
    Identifier 34 35 0 0            a
    Return 27 36 1 0                return a;
"""

REFUSED_STATEMENTS = """
@;
a@
a @b;
a = @;
@= a;
a = b @= c;
a +@= b;
x {}@
{}@;
{@@
}@
{ a @}
break@
break @a;
continue @1;
return@
return a @b;
return @let a = 1;
return @{};
return @break;
const A@;
const A = @;
const a@.b = 1;
const @(a, b) = c;
const A: @= 1;
@in;
true = @;
@fn g() {}
@struct S {}
@use a;
loop { break @}
"""

ITEMS = """
fn f() {}
    Name 3 4 0 0                    f
    TypeTuple 0 0 0 0
    Function 0 9 2 0                fn f() {}
fn f() -> () {}
    Name 3 4 0 0                    f
    TypeTuple 10 12 0 0             ()
    Function 0 15 2 0               fn f() -> () {}
fn f() -> felt { return 1; }
    Name 3 4 0 0                    f
    Named 10 14 0 0                 felt
    Literal 24 25 0 1 10            1
    Return 17 26 1 0                return 1;
    Function 0 28 3 0               fn f() -> felt { return 1; }
fn f(a: felt, b: T*) {}
    Name 3 4 0 0                    f
    Name 5 6 0 0                    a
    Named 8 12 0 0                  felt
    Param 0 0 2 0
    Name 14 15 0 0                  b
    Named 17 18 0 3                 T
    Pointer 17 19 1 0               T*
    Param 0 0 2 0
    TypeTuple 0 0 0 0
    Function 0 23 4 2               fn f(a: felt, b: T*) {}
fn f(a: T,) {}
    Name 3 4 0 0                    f
    Name 5 6 0 0                    a
    Named 8 9 0 3                   T
    Param 0 0 2 0
    TypeTuple 0 0 0 0
    Function 0 14 3 1               fn f(a: T,) {}
fn f(a: T) -> (T, T) { let b = a; return (a, b); }
    Name 3 4 0 0                    f
    Name 5 6 0 0                    a
    Named 8 9 0 3                   T
    Param 0 0 2 0
    Named 15 16 0 3                 T
    Named 18 19 0 3                 T
    TypeTuple 14 20 2 0             (T, T)
    Name 27 28 0 0                  b
    Identifier 31 32 0 0            a
    Let 23 33 2 0                   let b = a;
    Identifier 42 43 0 0            a
    Identifier 45 46 0 0            b
    Tuple 41 47 2 0                 (a, b)
    Return 34 48 1 0                return (a, b);
    Function 0 50 5 1               fn f(a: T) -> (T, T) { let b = a; return (a, b); }
fn felt(felt: felt) -> felt {}
    Name 3 7 0 0                    felt
    Name 8 12 0 0                   felt
    Named 14 18 0 0                 felt
    Param 0 0 2 0
    Named 23 27 0 0                 felt
    Function 0 30 3 1               fn felt(felt: felt) -> felt {}
struct S {}
    Name 7 8 0 0                    S
    StructDef 0 11 1 0              struct S {}
struct S { a: T }
    Name 7 8 0 0                    S
    Name 11 12 0 0                  a
    Named 14 15 0 3                 T
    StructDef 0 17 3 0              struct S { a: T }
struct S { a: felt, b: [T; 2], }
    Name 7 8 0 0                    S
    Name 11 12 0 0                  a
    Named 14 18 0 0                 felt
    Name 20 21 0 0                  b
    Named 24 25 0 3                 T
    Count 27 28 0 2 10              2
    FixedArray 23 29 2 0            [T; 2]
    StructDef 0 32 5 0              struct S { a: felt, b: [T; 2], }
const A: T = 1;
    Name 6 7 0 0                    A
    Named 9 10 0 3                  T
    Literal 13 14 0 1 10            1
    Const 0 15 3 1                  const A: T = 1;
use m;
    Name 4 5 0 0                    m
    UseSingle 0 6 1 0               use m;
use a::b;
    Name 4 5 0 0                    a
    Name 7 8 0 0                    b
    UseSingle 0 9 2 1               use a::b;
use a::b::c;
    Name 4 5 0 0                    a
    Name 7 8 0 0                    b
    Name 10 11 0 0                  c
    UseSingle 0 12 3 2              use a::b::c;
use a::{};
    Name 4 5 0 0                    a
    UseList 0 10 1 1                use a::{};
use a::{b};
    Name 4 5 0 0                    a
    Name 8 9 0 0                    b
    UseList 0 11 2 1                use a::{b};
use a::{b, c,};
    Name 4 5 0 0                    a
    Name 8 9 0 0                    b
    Name 11 12 0 0                  c
    UseList 0 15 3 1                use a::{b, c,};
use a::b::{c, d};
    Name 4 5 0 0                    a
    Name 7 8 0 0                    b
    Name 11 12 0 0                  c
    Name 14 15 0 0                  d
    UseList 0 17 4 2                use a::b::{c, d};
use m; struct S {} const A = 1; fn f() {}
    Name 4 5 0 0                    m
    UseSingle 0 6 1 0               use m;
    Name 14 15 0 0                  S
    StructDef 7 18 1 0              struct S {}
    Name 25 26 0 0                  A
    Literal 29 30 0 1 10            1
    Const 19 31 2 0                 const A = 1;
    Name 35 36 0 0                  f
    TypeTuple 0 0 0 0
    Function 32 41 2 0              fn f() {}
"""

REFUSED_ITEMS = """
fn@
fn f@
fn f()@
fn f() {@
fn f() @}
fn f()@;
fn f() {}@;
fn f() {} @}
fn f @{}
fn @() {}
fn @fn() {}
fn @1() {}
fn f(a@) {}
fn f(a: @) {}
fn f(@: T) {}
fn f(@,) {}
fn f(a: T @b: T) {}
fn f(a: T,@,) {}
fn f(@(a, b): T) {}
fn f(a: T @= 1) {}
fn f() -> @{}
fn f() -> T@;
fn f() @- > T {}
fn f() @T {}
fn f() @=> T {}
struct@
struct S@
struct S@;
struct @{}
struct S {}@;
struct S { a @}
struct S { a: @}
struct S { @, }
struct S { a: T @b: T }
struct S { a: T@; }
struct S { a: T,@, }
struct S { a: @1 }
struct S@(T);
const@
const A@;
const @= 1;
const A = @;
const A: @= 1;
const A: T@;
const A = 1@
const @1 = 1;
const @in = 1;
const A @== 1;
const A = 1@, B = 2;
use@
use@;
use a@
use a::@
use a::@;
use @::a;
use a@:b;
use a@.b;
use @{a};
use a::{b}@
use a::{@,};
use a::{b @c};
use a::{b,@,c};
use a::{b@::c};
use a::{@{b}};
use a::{b}@::c;
use a::b@, c;
use a::@*;
use @1;
@let a = 1;
@return;
@a;
@1
@{}
@;
const A = 1; @;
const A = 1; @x
const A = 1; const B = @;
const A = 1; fn@
@pub fn f() {}
"""

# ---- where reading stops
#
# Rounds that fail after they have taken something: operators, casts, postfixes, lists, stars, `else`; numerals that are turned down;
# attempts of which another takes more than the last; and what comes after the last item.

STOPPED_VALUES = """
a * b *@
a / b /@
a % b %@
a + b +@
a - b -@
a == b ==@
a != b !=@
a < b <@
a > b >@
a <= b <=@
a >= b >=@
a & b &@
a | b |@
a ^ b ^@
a && b &&@
a || b ||@
a + b * @/ c
a || b == c + d * @as T
!-!@
a - -@
f(-@)
a as T as@
a as T as @5
a as T * b as @(T)
a.b.@
a.b.@.c
t.0.1u32@
t.0u32@.1
1.2u32@
true.@
f(a)(@
f(a)(b,@
f(a)(b, c@
f(a, b.@)
f(a, b[@
f(a, b[c@)
f(a, @+ b)
a[0][@
a[0][1@
a[0](@
[1, 2,@
[1, 2, @* 3]
[!@]
[[1; 2], [3; @n]]
[[1; 2]; 3u32]@
[f(1@; 2)]
(1, 2,@
(1, 2, @* 3)
(1, (2, 3@
((1)@
P { x: 1, y @}
P { x: 1, y: @}
P { x: 1, @2 }
P { x: 1, y: 2,@, }
P { x: Q { y @} }
P {} + Q {@
P { x: 1 }.@
new T**@
new (A, B,@
new (A, @5)[1]
new (A,)@
new (A)*[1@
new T[1].@
"""

STOPPED_TYPES = """
T** @T
(A, B, @5)
(A, B,@
(A, (B, C @D))
(A,) @B
(A)* @B
[T*@, 3]
[[T; 2]; @]
[[T; 2@
[[T; 2]; 3@; 4]
[T; 3 +@]
[T; 3u32 +@]
[T; 3.@]
[T; 3.x@]
[T; 3 as@]
[T; 3 as T@]
[T; 3(@]
[T; x {@]
[T; !@]
[T; [1]@]
[T; [1; 2u32]@]
"""

STOPPED_BODIES = """
t.0u32@;
t.0u32@ = 1;
f(t.0felt@);
let a = [1; 2u32]@;
const A: [T; 2felt@] = b;
if (a) b; else if (c) d; else@
if (a) b; else @+ c;
if (a) {} else { x @}
if (a) if (b) x; else y; else z@
if (a) if (b) x; else y; else z; @else w;
if (a, b,@, c) d;
if (a)(b)@
if a + (b)@
if x { y: 1 @; }
if x { y: 1, z @}
while x { y: @; }
while (a)(b) == c {}@
while (a) { b; c @}
loop { a; if (b) @}
loop loop loop@
for (x = @; y; z) {}
for (x; y +@; z) {}
for (x; y; z.@) {}
for (x; y; z = @) {}
for (let (a, b@; c; d) {}
for (let a: T* @T = b; c; d) {}
for (x; y; z) if (a) b; else@
for (x; y; z) { a @}
x; y @z;
{ x; } y@
x = y +@;
x.y = z.@;
x; return y as@;
return f(@;
let (a, b)@, c = d;
let (a, (b, c,@)) = d;
let (a, (b@)) = c;
let ((a, b), @[c]) = d;
let a: T* @T = b;
let a: (T, @= b;
let a = b; let@
{ { { a @} } }
{ a; { b; }@@
break; @;
"""

STOPPED_ITEMS = """
fn f(a: T, b: T @c) {}
fn f(a: T, b@) {}
fn f(a: T,@
fn f(a: T,) -> (T,@
fn f() -> T* @T {}
fn f() { a; b @c; } const B = 1;
fn f() {} fn g() { if (a) { x; } else @}
fn f() { x; } @} fn g() {}
struct S { a: T, b @}
struct S { a: T, @1 }
use a::b::@;
use a::b::@5;
use a::b::c@
use a::b::{c, d,@, };
use a::{b, @1};
use a::{b,}@
use a::{b} @use c;
use a::b @use c;
const A = 1 @const B = 2;
const A = 1; const B = 2; @3
const A = 1; const B = t.0u32@;
const A = 1; fn f() {} struct S { a: T, } use b; @let
const A: [T; 2] = [1; 2@
"""

# A numeral in every place that one can stand in, for token tables with other bases.
NUMERALS = """
const A: [T; 3] = [t.0, 1felt, 2u32, 4u8, true, [5; 6]];
    Name 6 7 0 0                    A
    Named 10 11 0 3                 T
    Count 13 14 0 3 10              3
    FixedArray 9 15 2 0             [T; 3]
    Identifier 19 20 0 0            t
    TupleIndex 19 22 1 0            t.0
    LiteralFelt 24 29 0 1 10        1felt
    LiteralU32 31 35 0 2 10         2u32
    Literal 37 40 0 4 10            4u8
    Bool 42 46 0 1                  true
    Literal 49 50 0 5 10            5
    Count 52 53 0 6 10              6
    ArrayRepeat 48 54 2 0           [5; 6]
    Array 18 55 6 0                 [t.0, 1felt, 2u32, 4u8, true, [5; 6]]
    Const 0 56 3 1                  const A: [T; 3] = [t.0, 1felt, 2u32, 4u8, true, [5; 6]];
"""

# ---- the nest
#
# Each line is the nest at which a value, a type or a pattern is read, and a text up to there. Parentheses and one token follow.
# With so many of them that the token is read at nest 64 the text is only unfinished, and with one more it is too deep.
# After `if (` and `while (` both conditions are tried: the one in parentheses, and then the bare one, a nest further in.

NESTED_VALUES = """
1 const A =
1 const A = a *
1 const A = a ||
1 const A = a + b * c as T ==
1 const A = !-
1 const A = f() + a.b - c[0] /
2 const A = f(
2 const A = f(a,
2 const A = a.b(
2 const A = a[
2 const A = [
2 const A = [a,
2 const A = (a,
2 const A = P { x:
2 const A = P { x: 1, y:
2 const A = new T[
2 const A: [T;
3 const A = f([
3 const A: (T, [T;
2 fn f() {
2 fn f() { {} a; if (b) c;
2 fn f() { a =
2 fn f() { return
2 fn f() { let a =
2 fn f() { let a: T =
2 fn f() { const A =
2 fn f() { if !
2 fn f() { while !
3 fn f() { if (
3 fn f() { while (
2 fn f() { for (
2 fn f() { for (a =
2 fn f() { for (let a =
2 fn f() { for (a;
2 fn f() { for (a; b;
2 fn f() { for (a; b; c =
3 fn f() { {
3 fn f() { if (a)
3 fn f() { if (a) {} else
3 fn f() { loop
3 fn f() { while (a)
3 fn f() { for (a; b; c)
4 fn f() { for (a; b; c) loop
"""

NESTED_TYPES = """
1 const A:
1 fn f(a:
1 fn f(a: T, b:
1 fn f() ->
1 struct S { a:
1 struct S { a: T, b:
2 const A: [
2 const A: (T,
2 const A = new
3 const A = new (T,
2 fn f() { let a:
2 fn f() { const A:
2 fn f() { for (let a:
"""

NESTED_PATTERNS = """
2 fn f() { let
3 fn f() { let (a,
2 fn f() { for (let
"""


def rows_of(block, text):
    """The nodes that the lines of a block say, held to the parts of the text that stand beside them."""
    nodes = []
    for line in block:
        kind, rest = line.split(None, 1)
        *numbers, said = (rest + " ").split(" ", 5 if kind in BASED else 4)
        start, end, children, value, base = [int(number) for number in numbers] + [0] * (kind not in BASED)
        if text[start:end].strip() != said.strip():
            raise SystemExit(f"parser_expected.py: in {text!r}, {start}..{end} is {text[start:end]!r} and not {said}")
        nodes.append((kind, start, end, children, value, base))
    return nodes


def blocks(written, around):
    """Each text of a part above, with what stands around it, and its nodes."""
    found = []
    for line in written.splitlines():
        if line.startswith(" "):
            found[-1][1].append(line)
        elif line:
            found.append((around.format(line), []))
    return [(text, rows_of(block, text)) for text, block in found]


def roots(nodes):
    """How many of the nodes are no other's children; each must find its children before it."""
    count = 0
    for kind, start, end, children, *_ in nodes:
        if children > count:
            raise SystemExit(f"parser_expected.py: {kind} {start} {end} has {children} children, and {count} stand before it")
        count += 1 - children
    return count


ITEM, VALUE, TYPE, BODY = "{}", "const A = {};", "const A: {} = 1;", "fn f() {{ {} }}"


def whole(around, text, nodes):
    """The nodes with those of what stands around them."""
    end = len(text)
    if around == ITEM:
        return nodes
    if around == BODY:
        return [("Name", 3, 4, 0, 0, 0), ("TypeTuple", 0, 0, 0, 0, 0)] + nodes + [("Function", 0, end, 2 + roots(nodes), 0, 0)]
    if roots(nodes) != 1:
        raise SystemExit(f"parser_expected.py: {text!r} has {roots(nodes)} values or types")
    if around == VALUE:
        return [("Name", 6, 7, 0, 0, 0)] + nodes + [("Const", 0, end, 2, 0, 0)]
    return [("Name", 6, 7, 0, 0, 0)] + nodes + [("Literal", end - 2, end - 1, 0, 1, 10), ("Const", 0, end, 3, 1, 0)]


# ---- the cases

NODE_BYTES = 4096
TREE, SYNTAX, DEEP = "tree", "syntax", "deep"
EMPTY_ENTRY = (0, 0, 0, 0, 0, 0)


class Cases(expected.Cases):
    def __init__(self):
        super().__init__()
        self.seen, self.shortest = set(), {}

    def case(self, text, tokens, answer, nodes=(), node_bytes=NODE_BYTES, rest=0, at=None):
        """A case with these tokens and, after the last, `rest` bytes more of token table. What has no derivation stops at `at`."""
        if (answer == SYNTAX) != (at is not None):
            raise SystemExit(f"parser_expected.py: {text!r} does not say where it stops")
        words = [f"p {node_bytes} {16 * len(tokens) + rest}"] + [",".join(map(str, token)) for token in tokens] + [text]
        owed = [{TREE: f"{TREE} {len(nodes)} 0", SYNTAX: f"{SYNTAX} {at} 0", DEEP: f"{DEEP} 0"}[answer]]
        for kind, *fields in nodes[:node_bytes // 16]:
            owed.append(f"n{NODE_KINDS.index(kind) + 1}," + ",".join(map(str, fields)))
        self.line(" ".join(words), " ".join(owed))

    def tree(self, text, nodes, node_bytes=NODE_BYTES, rest=0):
        roots(nodes)
        self.seen |= {(kind, value) if kind in ("Binary", "Unary") else kind for kind, _, _, _, value, _ in nodes}
        for kind, *_ in nodes:
            if kind not in self.shortest or len(text) < len(self.shortest[kind][0]):
                self.shortest[kind] = text, nodes
        self.case(text, tokens_of(text), TREE, nodes, node_bytes, rest)

    def deep(self, text, node_bytes=NODE_BYTES):
        self.case(text, tokens_of(text), DEEP, (), node_bytes)

    def stopped(self, marked, node_bytes=NODE_BYTES):
        """A text with `@` before the first token that no attempt takes, or at its end."""
        text, at = unmarked(marked)
        self.case(text, tokens_of(text), SYNTAX, (), node_bytes, at=at)

    def trees(self, around, written):
        for text, nodes in blocks(written, around):
            self.tree(text, whole(around, text, nodes))

    def syntax(self, around, written):
        for line in written.strip().splitlines():
            self.stopped(around.format(line[:-2]) + "@" if line.endswith("@@") else around.format(line))


def unmarked(marked):
    """The text without its mark, and how many tokens begin before that."""
    if marked.count("@") != 1:
        raise SystemExit(f"parser_expected.py: {marked!r} has not one mark")
    before, after = marked.split("@")
    text = before + after
    if tokens_of(before) + tokens_of(" " * len(before) + after) != tokens_of(text):
        raise SystemExit(f"parser_expected.py: the mark of {marked!r} is within a token")
    return text, len(tokens_of(before))


def tokens_of(text):
    tokens, errors = expected.lex_all(text.encode())
    if errors:
        raise SystemExit(f"parser_expected.py: {text!r} has lexical errors")
    return tokens


# Texts with a part that is repeated n times. Each gives the text and its nodes.


def nested_parens(n):
    text = "const A = " + "(" * n + "1" + ")" * n + ";"
    nodes = [("Literal", 10 + n, 11 + n, 0, 1, 10)]
    nodes += [("Paren", 10 + n - k, 11 + n + k, 1, 0, 0) for k in range(1, n + 1)]
    return text, whole(VALUE, text, nodes)


def nested_arrays(n):
    text = "const A = " + "[" * n + "]" * n + ";"
    nodes = [("Array", 9 + n - k, 11 + n + k, min(k, 1), 0, 0) for k in range(n)]
    return text, whole(VALUE, text, nodes)


def nested_calls(n):
    text = "const A = " + "f(" * n + "x" + ")" * n + ";"
    last = 10 + 2 * n
    nodes = [("Identifier", 10 + 2 * k, 11 + 2 * k, 0, 0, 0) for k in range(n + 1)]
    nodes += [("Call", last - 2 * k, last + 1, 2, 0, 0) for k in range(1, n + 1)]
    return text, whole(VALUE, text, nodes)


def nested_types(n):
    text = "const A: " + "(" * n + "T" + ")" * n + " = 1;"
    return text, whole(TYPE, text, [("Named", 9 + n, 10 + n, 0, 3, 0)])


def nested_allocations(n):
    text = "const A = new " + "(" * n + "T" + ")" * n + "[1];"
    at = 14 + 2 * n
    nodes = [("Named", 14 + n, 15 + n, 0, 3, 0), ("Literal", at + 2, at + 3, 0, 1, 10), ("New", 10, at + 4, 2, 0, 0)]
    return text, whole(VALUE, text, nodes)


def nested_patterns(n):
    text = "fn f() { let " + "(" * n + "a" + ",b)" * n + " = c; }"
    at = 14 + 4 * n
    nodes = [("Name", 13 + n, 14 + n, 0, 0, 0)]
    for k in range(n):
        nodes += [("Name", 15 + n + 3 * k, 16 + n + 3 * k, 0, 0, 0), ("PatternTuple", 0, 0, 2, 0, 0)]
    nodes += [("Identifier", at + 3, at + 4, 0, 0, 0), ("Let", 9, at + 5, 2, 0, 0)]
    return text, whole(BODY, text, nodes)


def nested_blocks(n, inside="", nodes=()):
    """The nodes inside are told from the place where they begin."""
    text = "fn f() { " + "{" * n + inside + "}" * n + " }"
    moved = [(kind, 9 + n + start, 9 + n + end, *more) for kind, start, end, *more in nodes]
    size = len(inside)
    moved += [("Block", 9 + n - k, 9 + n + size + k, roots(nodes) if k == 1 else 1, 0, 0) for k in range(1, n + 1)]
    return text, whole(BODY, text, moved)


def else_chain(n):
    """Each `if` but the first is in the `else` of the one before it: `if (a) {} else if (a) {}`."""
    text = "fn f() { " + " else ".join(["if (a) {}"] * n) + " }"
    nodes = []
    for k in range(n):
        at = 9 + 15 * k
        nodes += [("Identifier", at + 4, at + 5, 0, 0, 0), ("Block", at + 7, at + 9, 0, 0, 0)]
    end = 9 + 15 * n - 6
    nodes += [("If", 9 + 15 * k, end, 2 if k == n - 1 else 3, 0, 0) for k in reversed(range(n))]
    return text, whole(BODY, text, nodes)


def nested_conditions(word, n):
    text = f"fn f() {{ {word} (" + "(" * n + "1" + ")" * n + ") {} }"
    at = 11 + len(word) + n
    nodes = [("Literal", at, at + 1, 0, 1, 10)] + [("Paren", at - k, at + 1 + k, 1, 0, 0) for k in range(1, n + 1)]
    nodes += [("Block", at + n + 3, at + n + 5, 0, 0, 0), (word.capitalize(), 9, at + n + 5, 2, 0, 0)]
    return text, whole(BODY, text, nodes)


def prefixes(n):
    text = "const A = " + "!" * n + "a;"
    nodes = [("Identifier", 10 + n, 11 + n, 0, 0, 0)] + [("Unary", 10 + n - k, 11 + n, 1, 0, 0) for k in range(1, n + 1)]
    return text, whole(VALUE, text, nodes)


def call_chain(n):
    text = "const A = f" + "()" * n + ";"
    nodes = [("Identifier", 10, 11, 0, 0, 0)] + [("Call", 10, 11 + 2 * k, 1, 0, 0) for k in range(1, n + 1)]
    return text, whole(VALUE, text, nodes)


def sum_chain(n):
    text = "const A = a" + "+a" * n + ";"
    nodes = [("Identifier", 10, 11, 0, 0, 0)]
    for k in range(1, n + 1):
        nodes += [("Identifier", 10 + 2 * k, 11 + 2 * k, 0, 0, 0), ("Binary", 10, 11 + 2 * k, 2, 0, 0)]
    return text, whole(VALUE, text, nodes)


def pointers(n):
    text = "const A: T" + "*" * n + " = 1;"
    nodes = [("Named", 9, 10, 0, 3, 0)] + [("Pointer", 9, 10 + k, 1, 0, 0) for k in range(1, n + 1)]
    return text, whole(TYPE, text, nodes)


def nest_cases(cases):
    name = [("Identifier", 0, 1, 0, 0, 0), ("ExprStmt", 0, 2, 1, 0, 0)]
    last = [
        (nested_parens, 63), (nested_arrays, 64), (nested_calls, 63), (nested_types, 63), (nested_allocations, 62),
        (nested_patterns, 62), (nested_blocks, 64), (lambda n: nested_blocks(n, "break;", [("Break", 0, 6, 0, 0, 0)]), 63),
        (lambda n: nested_blocks(n, "x;", name), 62), (else_chain, 63), (lambda n: nested_conditions("if", n), 62),
        (lambda n: nested_conditions("while", n), 62),
    ]
    for made, most in last:
        cases.tree(*made(1))
        cases.tree(*made(2))
        cases.tree(*made(most), node_bytes=16384)
        cases.deep(made(most + 1)[0])
    for made in (prefixes, call_chain, sum_chain, pointers):
        cases.tree(*made(200), node_bytes=16384)
    for first, written in (("1", NESTED_VALUES), ("T", NESTED_TYPES), ("a", NESTED_PATTERNS)):
        for line in written.strip().splitlines():
            nest, before = line.split(None, 1)
            n = 64 - int(nest)
            cases.stopped(f"{before} " + "(" * n + first + "@")
            cases.deep(f"{before} " + "(" * (n + 1) + first)
    # what is read and then turned down counts, a token that is only looked at does not
    size, unclosed, closed = "const A: [T; {}1{}{}] = 1;", "const A = {}{};", "const A = {}1{} {}2;"
    for n in (1, 62):
        cases.stopped(size.format("(" * n, ")" * n, "@"))
    cases.deep(size.format("(" * 63, ")" * 63, ""))
    for n in (63, 64):
        cases.stopped(unclosed.format("(" * n, "@"))
    cases.deep(unclosed.format("(" * 65, ""))
    cases.stopped(closed.format("(" * 63, ")" * 63, "@"))
    cases.deep(closed.format("(" * 64, ")" * 64, ""))
    # what no attempt reaches does not count
    cases.stopped("const A = 1 @2; const B = " + "(" * 70 + "1" + ")" * 70 + ";")
    cases.stopped("const A = a as @" + "(" * 70 + "T")


def room_cases(cases):
    [(text, nodes)] = blocks(NAMED_ITEMS, ITEM)[:1]
    for node_bytes in (0, 1, 15, 16, 17, 31, 32, 47, 48, 49, 53, 63, 64, 69, 16384):
        cases.tree(text, nodes, node_bytes)
    # some with attempts that are dropped: an index, a condition in parentheses, a struct literal
    for text, nodes in blocks(NAMED_BODIES, BODY) + [case for case in blocks(CONDITIONALS, BODY) if "(a, b)" in case[0]]:
        nodes = whole(BODY, text, nodes)
        for count in range(len(nodes) + 2):
            cases.tree(text, nodes, 16 * count + count % 4 * 5)
    for node_bytes in (0, 5, 16, 53):
        cases.tree("", [], node_bytes)
        cases.stopped("const A = 1; const B = @;", node_bytes)
        cases.deep(nested_parens(64)[0], node_bytes)


def token_cases(cases):
    [(text, nodes)] = blocks(NAMED_ITEMS, ITEM)[:1]
    tokens = tokens_of(text)
    for rest in (1, 7, 15):
        cases.tree(text, nodes, rest=rest)
    # no whole entry is no token, whatever the text
    for rest in (0, 1, 15):
        cases.case(text, [], TREE, rest=rest)
    # an entry that is no token of the grammar: all before it are taken, and it is not
    for kind in (0, 51, 255):
        entry = (kind, 0, 0, 0, 0, 0)
        cases.case("", [entry], SYNTAX, at=0)
        for place in range(len(tokens) + 1):
            cases.case(text, tokens[:place] + [entry] + tokens[place:], SYNTAX, at=place)
            if place < len(tokens):
                cases.case(text, tokens[:place] + [entry] + tokens[place + 1:], SYNTAX, at=place)
    cases.case("", [EMPTY_ENTRY] * 40, SYNTAX, at=0)
    # every part of the tokens but the whole: a front is taken whole, and no item begins with the second token or a later one
    for count in range(1, len(tokens)):
        cases.case(text, tokens[:count], SYNTAX, at=count)
        cases.case(text, tokens[count:], SYNTAX, at=0)
        cases.case(text, tokens[:count], SYNTAX, at=count, rest=15)
    # where it stops is told by places, whatever the spans and the text, and whatever a suffix that there is not
    for marked in ("const A = t.0u32@;", "const A: [T; 3u32@] = 1;", "const A = [1; 3u32]@;"):
        text, at = unmarked(marked)
        for suffix in (1, 2, 3, 4, 255):
            tokens = [(kind, old and suffix, 9, 2, 7, 0) for kind, old, *_ in tokens_of(text)]
            cases.case("", tokens, SYNTAX, at=at)
    # spans are the tokens' own, and only a type's spelling is looked up in the text; a part that is not there spells no type
    text = "const A: felt = 1;"
    for by, short, named in ((0, text, 0), (0, text[:13], 0), (0, text[:12], 3), (0, "", 3), (60000, text, 3)):
        tokens = [(kind, suffix, start + by, end + by, *more) for kind, suffix, start, end, *more in tokens_of(text)]
        nodes = [("Name", 6, 7, 0, 0, 0), ("Named", 9, 13, 0, named, 0), ("Literal", 16, 17, 0, 1, 10), ("Const", 0, 18, 3, 1, 0)]
        nodes = [(kind, start + by, end + by, *more) for kind, start, end, *more in nodes]
        cases.case(short, tokens, TREE, nodes)
    tokens = [(kind, suffix, end, start, *more) for kind, suffix, start, end, *more in tokens_of(text)]
    cases.case(text, tokens, TREE,
               [("Name", 7, 6, 0, 0, 0), ("Named", 13, 9, 0, 3, 0), ("Literal", 17, 16, 0, 1, 10), ("Const", 5, 17, 3, 1, 0)])
    # a base is the numeral token's own, however that is spelled; what any other token has for it is of no account
    [(text, nodes)] = blocks(NUMERALS, ITEM)
    tokens = tokens_of(text)
    for base in (0, 1, 2, 7, 8, 10, 16, 99, 100, 255):
        cases.case(text, *with_bases(tokens, nodes, [base] * len(tokens)))
    cases.case(text, *with_bases(tokens, nodes, [base or 255 for *_, base in tokens]))
    cases.case(text, *with_bases(tokens, nodes, [16 if base == 0 else 0 for *_, base in tokens]))
    # a node of every kind, each token with another base
    for text, nodes in dict(cases.shortest[kind] for kind in NODE_KINDS).items():
        tokens = tokens_of(text)
        cases.case(text, *with_bases(tokens, nodes, range(255 - len(tokens), 255)))
        # an item that is cut off: what took a token had looked at none after it, so all that are left are taken
        if roots(nodes) != 1:
            raise SystemExit(f"parser_expected.py: {text!r} is not one item")
        for count in range(1, len(tokens)):
            cases.case(text, tokens[:count], SYNTAX, at=count)


def with_bases(tokens, nodes, bases):
    """The tokens with these bases, and the tree that is owed for them."""
    base_at = {token[2]: base for token, base in zip(tokens, bases)}
    return ([(*token[:5], base) for token, base in zip(tokens, bases)], TREE,
            [(*node[:5], base_at[node[1]] if node[0] in BASED else 0) for node in nodes])


def all_cases(cases):
    cases.section("what 01 names")
    cases.tree("", [])
    cases.trees(ITEM, NAMED_ITEMS)
    cases.trees(VALUE, NAMED_VALUES)
    cases.trees(BODY, NAMED_BODIES)
    cases.syntax(BODY, NAMED_REFUSED_BODIES)
    cases.tree(*nested_parens(63))
    cases.deep(nested_parens(64)[0])

    for title, around, accepted, refused in (
            ("types", TYPE, TYPES, REFUSED_TYPES),
            ("allocation types", VALUE, ALLOCATIONS, REFUSED_ALLOCATIONS),
            ("casts", VALUE, CASTS, REFUSED_CASTS),
            ("literals", VALUE, LITERALS, ""),
            ("prefixes", VALUE, PREFIXES, ""),
            ("operators", VALUE, OPERATORS, ""),
            ("levels", VALUE, LEVELS, REFUSED_OPERATIONS),
            ("calls", VALUE, CALLS, REFUSED_CALLS),
            ("members, indices and tuple indices", VALUE, PARTS, REFUSED_PARTS),
            ("struct literals", VALUE, STRUCT_LITERALS, REFUSED_STRUCT_LITERALS),
            ("tuples and parentheses", VALUE, TUPLES, ""),
            ("arrays", VALUE, ARRAYS, REFUSED_TUPLES_AND_ARRAYS),
            ("patterns", BODY, PATTERNS, REFUSED_PATTERNS),
            ("conditionals", BODY, CONDITIONALS, REFUSED_CONDITIONALS),
            ("loops", BODY, LOOPS, REFUSED_LOOPS),
            ("statements", BODY, STATEMENTS, REFUSED_STATEMENTS),
            ("items", ITEM, ITEMS, REFUSED_ITEMS)):
        cases.section(title)
        cases.trees(around, accepted)
        cases.syntax(around, refused)

    cases.section("where reading stops")
    cases.syntax(VALUE, STOPPED_VALUES)
    cases.syntax(TYPE, STOPPED_TYPES)
    cases.syntax(BODY, STOPPED_BODIES)
    cases.syntax(ITEM, STOPPED_ITEMS)

    cases.section("the nest")
    nest_cases(cases)

    cases.section("small node tables")
    room_cases(cases)

    cases.section("token tables")
    token_cases(cases)

    cases.section("long runs")
    run_cases(cases)

    owed = {kind for kind in NODE_KINDS if kind not in ("Binary", "Unary")}
    owed |= {("Binary", value) for value in range(16)} | {("Unary", value) for value in range(2)}
    if cases.seen != owed:
        raise SystemExit(f"parser_expected.py: no tree has {owed - cases.seen}")
    return cases


# A text with a part that stands n times, as kinds alone: before, the part, after; and how many nodes it has.
RUNS = [
    ("const A =", "-", "1;", 16000, lambda n: n + 3),
    ("const A =", "!-", "1;", 8000, lambda n: 2 * n + 3),
    ("const A = 1", "+ 1", ";", 8000, lambda n: 2 * n + 3),
    ("const A = 1", "as T", ";", 8000, lambda n: 2 * n + 3),
    ("const A = f", "()", ";", 8000, lambda n: n + 3),
    ("const A = [1", ", 1", "];", 8000, lambda n: n + 4),
    ("const A = x {", "f: 1,", "};", 4000, lambda n: 2 * n + 4),
    ("const A: T", "*", "= 1;", 16000, lambda n: n + 4),
    ("fn f() {", "x;", "}", 8000, lambda n: 2 * n + 3),
    ("fn f() { let (a, b", ", c", ") = 1; }", 8000, lambda n: n + 8),
    ("fn f(", "a: T,", ") {}", 4000, lambda n: 3 * n + 3),
    ("struct S {", "a: T,", "}", 4000, lambda n: 2 * n + 2),
    ("use a", "::b", ";", 8000, lambda n: n + 2),
    ("", "const A = 1;", "", 3200, lambda n: 3 * n),
]


# The same of texts without a derivation, with `@` before the first token that no attempt takes.
STOPPED_RUNS = [
    ("const A =", "-", "@;", 16000),
    ("const A = 1", "+ 1", "+@;", 8000),
    ("const A = 1", "as T", "as @5;", 8000),
    ("const A = f", "()", "(@;", 8000),
    ("const A = [1", ", 1", ",@;", 8000),
    ("const A = x {", "f: 1,", "f:@", 4000),
    ("const A: T", "*", "@;", 16000),
    ("fn f() {", "x;", "@", 8000),
    ("fn f() { let (a, b", ", c", ",@) = 1; }", 8000),
    ("fn f(", "a: T,", "a@) {}", 4000),
    ("struct S {", "a: T,", "@, }", 4000),
    ("use a", "::b", "::@;", 8000),
    ("", "const A = 1;", "@;", 3200),
]


def run_cases(cases):
    def kinds(text):
        return [str(token[0]) for token in tokens_of(text)]
    def words(text):
        ks = kinds(text)
        return " ".join([str(len(ks))] + ks)
    for before, part, after, times, nodes in RUNS:
        cases.line(f"r {times} {words(before)} {words(part)} {words(after)}", f"{TREE} {nodes(times)} 0")
    # a run that stops after it: before, the part, after with its mark, and how often
    for before, part, after, times in STOPPED_RUNS:
        text, at = unmarked(after)
        stop = len(kinds(before)) + times * len(kinds(part)) + at
        cases.line(f"r {times} {words(before)} {words(part)} {words(text)}", f"{SYNTAX} {stop} 0")
    # a kind is the last eight bits of its number: a token of 3, `const`, and a name
    cases.line("p 4096 32 259 0 0 5 0 0 20 0 6 7 0 0 const a", f"{SYNTAX} 2 0")
    # the kinds of a part that stands no times are not passed: 3 kinds follow, 1, 3 and none
    cases.line("r 0 0 1 3 1 3", f"{SYNTAX} 0 0")
    # a run of what is nested is too deep
    for before, part, after in (("const A =", "(", "1;"), ("const A =", "[", "1;"), ("fn f()", "{", "}"), ("const A: ", "(", "T = 1;")):
        cases.line(f"r 16000 {words(before)} {words(part)} {words(after)}", f"{DEEP} 0")


def files():
    given, owed = all_cases(Cases()).files()
    return {"crates/parser_cases/stdin": given.encode(), "crates/parser_cases/stdout": owed.encode()}


def main(words):
    if words == []:
        return expected.write(files())
    if words == ["--check"]:
        return expected.check(files())
    print(__doc__)
    return 2


if __name__ == "__main__":
    sys.exit(main(sys.argv[1:]))
