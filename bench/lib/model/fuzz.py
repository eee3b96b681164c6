"""Random but telling command lines, and the model's answers to them: `Fuzz(SEED, COUNT, GAMES, PLIES, WITH_BYTES)`,
run, has the first as lines `MOMENT WHO LINE` in `inputs`, and the others in `answers`.

With bytes some lines hold bytes over 127, byte 0 and carriage returns (also at the end); without them every byte of a
line is 1 to 127, none of them 10 or 13. """

import random
import re
from lib.model.rules import *

TOP_MOMENTS = [4611686018427387904, 4611686018427387904, 9223372036854775807,
               9223372036854775808, 18446744073709551615]
PLAYERS = ['ann', 'bob', 'cat', 'D_4', 'sixteen_letters_']


def rows_of(text):
    """The parts of a text between semicolons, in which `(A B)*3` stands for `A B A B A B`."""
    text = re.sub(r'\(([^()]*)\)\*(\d+)', lambda found: ' '.join([found[1]] * int(found[2])), text)
    return [row.strip() for row in text.split(';')]


# Starts where mate, stalemate, dead material, captures in passing and castling are near, and rows; {h} is for the moves
# since a capture.
STARTS = rows_of("""
7k/8/6K1/8/8/8/8/R7 w - - {h} 90; 7k/8/8/5Q2/8/8/8/K7 w - - {h} 1; 7k/8/8/8/8/8/1p6/K7 w - - {h} 1;
7k/8/8/8/8/8/Q7/K7 w - - {h} 1; 1r5k/P7/6K1/8/8/8/8/8 w - - {h} 1; 8/8/8/K1pP3r/8/8/8/7k w - c6 0 1;
8/8/8/K1pP4/8/8/8/7k w - c6 0 1; 8/8/3k4/2pP4/8/8/8/K7 w - c6 0 5; 4k3/8/8/8/8/8/1r6/R3K3 w Q - {h} 1;
4k3/8/8/8/1b6/2N5/8/4K1N1 w - - {h} 1; 4k3/8/8/8/3p4/8/4P3/4K3 w - - {h} 1; 4k3/8/8/8/8/8/4P3/4K3 b - - {h} 12;
1k6/8/8/8/4Q2Q/8/8/K6Q w - - {h} 1; k7/8/8/3N1N2/2N3N1/8/2N3N1/K2N1N2 w - - {h} 1;
r3k2r/p1ppqpb1/bn2pnp1/3PN3/1p2P3/2N2Q1p/PPPBBPPP/R3K2R w KQkq - 0 1; r3k2r/8/8/8/8/8/8/R3K2R w KQkq - {h} 1;
r3k2r/8/8/8/8/8/8/R3K2R b KQkq - {h} 7; r3k2r/8/8/8/1b6/8/6n1/R3K2R w KQkq - {h} 1;
r3k2r/6P1/8/8/8/8/1p6/R3K2R w KQkq - {h} 30; r3k2r/1P4P1/8/8/8/8/1p4p1/R3K2R b KQkq - {h} 30;
8/2p5/3p4/KP5r/1R3p1k/8/4P1P1/8 w - - {h} 1; rnbq1k1r/pp1Pbppp/2p5/8/2B5/8/PPP1NnPP/RNBQK2R w KQ - 1 8;
4kb2/8/8/8/8/8/7p/2B1K3 w - - 0 1; 4k3/8/8/8/8/8/3p4/2B1K3 w - - {h} 1; 4k3/8/2n5/3P4/8/8/8/4K3 w - - {h} 1;
2b1k3/8/8/8/8/8/3p4/2B1K3 w - - {h} 1; 5b1k/8/8/8/8/6p1/7B/7K w - - {h} 40; 2b4k/8/8/8/8/6p1/7B/7K w - - {h} 40;
k7/1p6/8/8/8/8/6P1/K7 w - - {h} 9999; 1kn5/1P6/K7/8/8/8/8/8 w - - {h} 9998; 3qk3/8/8/8/8/8/8/3QK3 w - - {h} 60;
6k1/5ppp/8/8/8/8/5PPP/R5K1 w - - {h} 20; k7/8/1K6/8/8/8/7Q/8 w - - {h} 3; k7/2Q5/8/8/8/8/8/K7 w - - {h} 3;
8/8/8/8/8/5k2/7p/7K b - - {h} 3; 8/PPPPPPPP/8/k7/7K/8/pppppppp/8 w - - {h} 1;
rnbqkbnr/pppppppp/8/8/4P3/8/PPPP1PPP/RNBQKBNR b KQkq e3 0 1;
rnbqkbnr/ppp1pppp/8/8/3pP3/8/PPPP1PPP/RNBQKBNR b KQkq e3 0 3;
rnbqkbnr/ppp1pppp/8/8/3pP3/8/PPPP1PPP/RNBQKBNR b KQkq - 0 3; 4k3/8/8/1pPp4/8/8/8/4K3 w - b6 0 3;
4k3/8/8/1PpP4/8/8/8/4K3 w - c6 0 3; 4k3/8/8/8/1pPp4/8/8/4K3 b - c3 0 3; 4r1k1/8/8/3pP3/8/8/8/4K3 w - d6 0 3;
3k4/8/8/8/3pP3/8/8/3RK3 b - e3 0 3; 4kr2/8/8/8/8/8/8/R3K2R w KQ - {h} 1; 4k1r1/8/8/8/8/8/8/R3K2R w KQ - {h} 1;
3rk3/8/8/8/8/8/8/R3K2R w KQ - {h} 1; 2r1k3/8/8/8/8/8/8/R3K2R w KQ - {h} 1; 1r2k3/8/8/8/8/8/8/R3K2R w KQ - {h} 1;
r3k2r/8/8/8/8/8/8/4KR2 b kq - {h} 1; r3k2r/8/8/8/8/8/8/3RK3 b kq - {h} 1; r3k2r/8/8/8/8/8/8/1R2K1R1 b kq - {h} 1;
r3k2r/8/8/4R3/8/8/8/4K3 b kq - {h} 1; rn2k1nr/8/8/8/8/8/8/RN2K1NR w KQkq - {h} 1;
rnbqkbnr/pppppppp/8/8/8/8/PPPPPPPP/RNBQKBNR w KQkq - 0 1; rnbqkbnr/pppppppp/8/8/8/8/PPPPPPPP/RNBQKBNR w KQkq - {h} 1;
rnbqkbnr/pppppppp/8/8/8/8/PPPPPPPP/RNBQKBNR b KQkq - 0 1; rnbqkbnr/pppppppp/8/8/8/8/PPPPPPPP/RNBQKBNR w Kq - 0 1;
rnbqkbnr/pppppppp/8/8/8/8/PPPPPPPP/RNBQKBNR w - - 0 1""")

# Openings with the moves (and claims) to follow, for what random play misses: by the last of some of them a position
# comes for the third or fifth time just as 100 or 150 moves are made.
SCRIPTS = [(None if fen == "-" else fen, script) for fen, script in (row.split(" | ") for row in rows_of("""
- | (Nf3 Nf6 Ng1 Ng8)*5; - | e4 (Nf6 Nf3 Ng8 Ng1)*5;
rnbqkbnr/pppppppp/8/8/8/8/PPPPPPPP/RNBQKBNR w KQkq - 134 1 | (Nf3 Nf6 Ng1 Ng8)*4;
rnbqkbnr/pppppppp/8/8/8/8/PPPPPPPP/RNBQKBNR w KQkq - 135 1 | (Nf3 Nf6 Ng1 Ng8)*4;
rnbqkbnr/pppppppp/8/8/8/8/PPPPPPPP/RNBQKBNR w KQkq - 92 1 | (Nf3 Nf6 Ng1 Ng8)*3;
4k3/8/8/8/3p4/8/4P3/4K3 w - - 0 1 | e4 (Ke7 Ke2 Ke8 Ke1)*6;
4k3/8/8/8/3p4/8/4P3/4K3 w - - 0 1 | e4 (Ke7 Ke2 Ke8 Ke1)*2 claim three;
4k3/8/8/8/3p4/8/4P3/4K3 w - - 0 1 | e4 (Ke7 Ke2 Ke8 Ke1)*3 claim three; - | e4 (Nf6 Nf3 Ng8 Ng1)*2 claim three;
4k3/8/8/1pPp4/8/8/8/4K3 w - b6 0 3 | (Kd2 Kd7 Ke1 Ke8)*2 claim three;
8/8/8/K1pP3r/8/8/8/7k w - c6 0 1 | (Ka4 Kg1 Ka5 Kh1)*2 claim three;
r3k2r/8/8/8/8/8/8/R3K2R w KQkq - 0 1 | (Ra2 Ra7 Ra1 Ra8)*2 claim three;
r3k2r/8/8/8/8/8/8/R3K2R w KQkq - 0 1 | (Ra2 Ra7 Ra1 Ra8)*3 claim three;
4k3/8/8/1pPp4/8/8/8/4K3 w - b6 0 3 | (Kd2 Kd7 Ke1 Ke8)*6; 4k3/8/8/1pPp4/8/8/8/4K3 w - - 0 3 | (Kd2 Kd7 Ke1 Ke8)*6;
8/8/8/K1pP3r/8/8/8/7k w - c6 0 1 | (Ka4 Kg1 Ka5 Kh1)*6; 4r1k1/8/8/3pP3/8/8/8/4K3 w - d6 0 3 | (Kd2 Kh8 Ke1 Kg8)*6;
r3k2r/8/8/8/8/8/8/R3K2R w KQkq - 0 1 | (Ra2 Ra7 Ra1 Ra8)*6; r3k2r/8/8/8/8/8/8/R3K2R w KQkq - 0 1 | (Rg1 Rg8 Rh1 Rh8)*6;
r3k2r/8/8/8/8/8/8/R3K2R w KQkq - 0 1 | (Kf1 Kf8 Ke1 Ke8)*6;
r3k2r/8/8/8/8/8/8/R3K2R w Qk - 0 1 | (Ke2 Rb8 Ke1 Ra8 Kf2 Ke7 Ke1 Ke8)*5;
r3k2r/8/8/8/8/8/8/R3K2R w KQkq - 0 1 | Ke2 O-O-O; r3k2r/8/8/8/8/8/8/R3K2R w KQkq - 0 1 | Rxa8+ Kd7 O-O;
r3k2r/8/8/8/8/8/8/R3K2R b KQkq - 0 1 | Rxh1+ Kd2 O-O-O+; 7k/8/6K1/8/8/8/8/R7 w - - 149 90 | Ra8;
7k/8/6K1/8/8/8/8/R7 w - - 149 90 | claim fifty Ra8; 7k/8/6K1/8/8/8/8/R7 w - - 99 90 | claim fifty Ra8;
7k/8/6K1/8/8/8/8/R7 w - - 99 90 | claim three Ra8; 7k/8/6K1/8/8/8/8/R7 w - - 98 90 | claim fifty Ra8;
7k/8/6K1/8/8/8/8/R7 w - - 100 90 | claim fifty; 7k/8/6K1/8/8/8/8/R7 w - - 99 90 | claim fifty;
7k/8/8/5Q2/8/8/8/K7 w - - 149 1 | Qf7; 7k/8/8/5Q2/8/8/8/K7 w - - 99 1 | claim fifty Qf7;
7k/8/8/5Q2/8/8/8/K7 w - - 99 1 | claim three Qf7; 4k3/8/8/8/8/8/4P3/4K3 w - - 149 80 | e4 Kd7;
4k3/8/8/8/8/8/4P3/4K3 w - - 148 80 | Kf2 Kd7; 7k/8/6K1/3p4/8/8/B7/8 w - - 0 1 | Bxd5;
7k/8/6K1/3p4/8/8/B7/8 w - - 99 1 | claim three Bxd5; 4k3/8/8/8/8/4p3/3B4/2B1K1B1 w - - 0 1 | Bdxe3;
4k3/8/8/8/8/4p3/3B4/2B1KB2 w - - 0 1 | Bxe3; 8/k2P4/8/8/8/2B5/8/K7 w - - 0 1 | d8=B;
8/k1P5/8/8/8/2B5/8/K7 w - - 0 1 | c8=B; 8/k1P5/8/8/8/8/8/K7 w - - 0 1 | c8=N+; 8/k1P5/8/8/8/n7/8/K7 w - - 0 1 | c8=N+;
b3k3/8/8/8/8/8/6p1/B3K3 b - - 0 1 | g1=B; b3k3/8/8/8/8/8/5p2/B4K2 w - - 0 1 | Kxf2;
B3k3/8/8/8/8/8/5p2/b4K2 w - - 0 1 | Kxf2; b3k3/8/8/8/8/8/5p2/5K1B w - - 0 1 | Kxf2;
n3k3/8/8/8/8/8/5p2/B4K2 w - - 0 1 | Kxf2; n3k3/8/8/8/8/8/5p2/N4K2 w - - 0 1 | Kxf2;
k7/8/1K6/1P6/8/8/8/8 b - - 0 1 | Kb8 Ka6 Ka8 b6 Kb8 b7 Kc7; k7/8/KP6/8/8/8/8/8 w - - 0 1 | b7+ Kb8 Kb6;
- | f3 e5 g4 claim_fifty_Qh4; - | f3 e5 g4 Qh4; - | e4 e5 Bc4 Nc6 Qh5 Nf6 Qxf7; - | e4 c5 e5 d5 exd6 Qxd6;
- | e4 e5 Nf3 Nc6 Bc4 Bc5 O-O Nf6 d3 O-O; - | d4 d5 Nc3 Nc6 Bf4 Bf5 Qd2 Qd7 O-O-O O-O-O"""))]

BARE = ['7k/8/8/8/8/8/Q7/K7 w - - 0 1', '7k/8/8/8/8/8/Q7/K7 b - - 0 1',
        '7k/8/8/8/8/8/P7/K7 w - - 0 1', '7k/p7/8/8/8/8/8/K7 w - - 0 1',
        '7k/p7/8/8/8/8/P7/K7 w - - 0 1']

BAD_STARTS = rows_of("""
4k3/8/44/8/8/8/8/4K2R w - - 0 1; 4k3/8/8/8/8/8/8/13K2R w - - 0 1; 4k3/71/8/8/8/8/8/4K2R w - - 0 1;
4k3/08/8/8/8/8/8/4K2R w - - 0 1; 4k3/80/8/8/8/8/8/4K2R w - - 0 1; 4k3/7/8/8/8/8/8/4K2R w - - 0 1;
4k3/8p/8/8/8/8/8/4K2R w - - 0 1; 4k3//8/8/8/8/8/4K2R w - - 0 1; 4k3/8/8/8/8/8/8/4K2R/ w - - 0 1;
4k3/8/8/8/8/8/8/4K2X w - - 0 1; 4k3/8/8/8/8/8/8/4K2R W - - 0 1; 4k3/8/8/8/8/8/8/4K2R - - - 0 1;
4k3/8/8/8/8/8/8/4K2R w k - 0 1; 4k3/8/8/8/8/8/8/4K2R w Q - 0 1; 4k3/8/8/8/8/8/8/3K3R w K - 0 1;
4k3/8/8/8/8/8/8/4K2r b K - 0 1; 4k3/8/8/8/8/8/8/4K2R w K- - 0 1; 4k3/8/8/8/8/8/8/4K2R w -K - 0 1;
4k3/8/8/8/8/8/8/4K2R w K E6 0 1; 4k3/8/8/8/8/8/8/4K2R w K e 0 1; 4k3/8/8/4p3/8/8/8/4K2R w K e5 0 1;
4k3/8/8/4P3/8/8/8/4K2R w K e6 0 1; 4k3/8/8/8/4P3/8/4P3/4K2R b K e3 0 1; 4k3/8/8/8/4p3/8/8/4K2R b K e3 0 1;
4k3/8/8/8/4P3/4N3/8/4K2R b K e3 0 1; 4k3/8/8/8/4P3/8/8/4K2R w K e3 0 1;
3qk3/pppppppp/8/8/8/8/PPPPPPPP/NNNNKNNNN w - - 0 1; rnbqkbnr/pppppppp/q7/8/8/8/PPPPPPPP/RNBQKBNR w - - 0 1;
8/8/8/8/8/8/8/4K2R w - - 0 1; 4k3/8/8/8/8/8/8/6QR w - - 0 1; 4kk2/8/8/8/8/8/8/4K2R w - - 0 1;
4k3/8/8/8/8/8/8/3pK2R b - - 0 1; 7k/8/6K1/8/8/8/8/R7 w - - 150 9999; 7k/8/6K1/8/8/8/8/R7 w - - 151 1;
7k/8/6K1/8/8/8/8/R7 w - - 149 10000; 7k/8/6K1/8/8/8/8/R7 w - - 0149 1; 8/8/8/8/8/8/8/8 w -; 8/8/44/8/8/8/8/8 w - - 0 1;
8/8/8/8/8/8/8/8 w - - 0 1; 4k3/8/8/8/8/P7/PPPPPPPP/RNBQKBNR w - - 0 1; 4k3/8/8/8/8/8/8/4K2P w - - 0 1;
P3k3/8/8/8/8/8/8/4K3 w - - 0 1; 4k3/8/8/8/8/8/4R3/4K3 w - - 0 1; 4k3/8/8/8/8/8/8/4K3 w K - 0 1;
4k3/8/8/8/8/8/8/3KK3 w - - 0 1; 4k3/4K3/8/8/8/8/8/8 w - - 0 1; 4k3/8/8/8/8/8/8/8/4K3 w - - 0 1;
4k3/8/8/8/8/8/4K3 w - - 0 1; 4k3/9/8/8/8/8/8/4K3 w - - 0 1; 4k30/8/8/8/8/8/8/4K3 w - - 0 1;
4k3/8/8/8/8/8/8/4K3 w - e6 0 1; 4k3/8/8/4p3/8/8/8/4K3 w - e6 0 1; 4k3/8/8/4p3/8/8/8/4K3 b - e6 0 1;
4k3/4p3/8/4p3/8/8/8/4K3 w - e6 0 1; 4k3/8/4n3/4p3/8/8/8/4K3 w - e6 0 1; 4k3/8/8/8/8/8/8/4K2R b KQ - 0 1;
7k/5Q2/8/8/8/8/8/K7 b - - 0 1; 7k/6Q1/6K1/8/8/8/8/8 b - - 0 1; 7k/8/8/8/8/8/8/K7 w - - 0 1;
4kb2/8/8/8/8/8/8/2B1K3 w - - 0 1; 4k3/8/8/8/8/8/8/1N2K3 w - - 0 1; 7k/8/6K1/8/8/8/8/R7 w - - 150 90;
7k/8/6K1/8/8/8/8/R7 w - - 65535 9999; 7k/8/6K1/8/8/8/8/R7 w - - 149 10000""")
BAD_STARTS += [INITIAL_FEN[:43] + fields for fields in (
    ' x KQkq - 0 1| w QK - 0 1| w KK - 0 1| w KQkqK - 0 1| w KQkq e9 0 1| w KQkq e6 0 1| w KQkq e3 0 1| w KQkq -- 0 1|'
    ' w KQkq - 00 1| w KQkq - 0 0| w KQkq - 65536 1| w KQkq - 0 65536| w KQkq - 0 01| w KQkq - -1 1| w KQkq - +1 1|'
    ' w KQkq - 0 10000| w KQkq - 0 65535| w KQkq - 65535 1| w KQkq - 99999999999999999999 1|  w KQkq - 0 1| w KQkq - 0|'
    ' w KQkq - 0 1 | w KQkq - 0 1 1').split('|')] + [' ' + INITIAL_FEN, INITIAL_FEN[1:], '-', ' ', '/']

BAD_LINES = (
    '| |list | list|LIST|lists|list 1|move 1 0  e4|join 4294967296|join 4294967295|join 0|join 01|join -1|join|join |'
    'join 1 |join  1|join +1|join 1 2|name|name |name a-b|name a b|name bob|name 0|name _|list\t|list\x7f|list\x01|'
    'move 1 0|move 1 0 |move 1 0 e4 e5|move 1 00 e4|move 01 0 e4|move 1 4294967296 e4|move 4294967296 0 e4|'
    'move 1 0 e\x7f4|move 1 e4|claim 1 0|claim 1 0 four|claim 1 0 three e4 e5|claim 1 0 three |claim 1 three|'
    'claim 1 0 THREE|claim 0 0 fifty|open|open white|open white 300|open red 300 0|open white 300 0 |open white  300 0|'
    'open white 300 00|open white 0300 0|open white 4294967296 0|open white 4294967295 0|open white 300 4294967296|'
    'open White 300 0|open white 300 -1|open white 1/60 0|open white 1/60: 0|open white /60:30 0|open white 1/:30 0|'
    'open white 1:60/30 0|open white 01/60:30 0|open white 1/060:30 0|open white 1/60:030 0|'
    'open white 4294967296/60:30 0|open white 4294967295/60:30 0|open white 1/4294967296:30 0|'
    'open white 1/60:4294967296 0|open white 1/60:30 4294967296|open white 1/60:30|open white 1/60:30 0 |'
    'open white 1/60:30 0  |open white 60:30 0|open white 1/2/60:30 0|open white 1/60:30:15 0|open white 300 0 x\x7f|'
    'show|show 1 1|fen|pgn 00|flag|drop x|resign 1 1|offer\x011|hello').split('|')
BAD_LINES += ['name ' + 'a' * 17, 'name ' + 'a' * 16, 'x' * 255, 'move 1 0 ' + 'e' * 246, 'move 1 0 ' + 'e' * 245]


def pick(r, pairs):
    """One of the things, by weight."""
    things = [thing for thing, _ in pairs]
    return r.choices(things, [weight for _, weight in pairs])[0]


class Fuzz:
    def __init__(self, seed, n, games, plies, with_bytes):
        self.r = random.Random(seed)
        self.n, self.plies, self.games = n, plies, games
        self.with_bytes = with_bytes
        self.t = Table(games, plies)
        self.now = self.r.choice([0, 1000, 1700000000000])
        self.habits = {}        # game -> how it is played
        self.habit = {'style': 'any', 'claims': 0.03, 'offers': 0.02, 'resigns': 0, 'script': []}
        self.focus, self.streak = 0, 0
        self.scripts = []
        self.done = 0
        self.inputs, self.answers = [], []

    # ---- sending

    def moment(self, f=None, read=False):
        r = self.r
        x = r.random()
        if x < 0.012:
            return r.choice(TOP_MOMENTS)
        if read and x < 0.04:
            return r.choice([LAST_MOMENT, self.now + 10 ** 9, self.now + 70000])
        if x < 0.08:
            return max(0, self.now - r.choice([1, 10, 500, 5000, 10 ** 6, 10 ** 13]))
        if self.done > 0.98 * self.n and x < 0.10:
            return LAST_MOMENT
        if x < 0.0804 and r.random() < 0.2:
            self.now = min(LAST_MOMENT, self.now + r.choice([10 ** 8, 10 ** 10, 10 ** 14]))
            return self.now
        if f is not None and f.joined is not None and f.ending is None and x > 0.94:
            falls = f.since + f.held[f.side]    # the first moment at which it has
            lead = falls - max(self.now, self.t.greatest)
            at = falls + r.choice([-1, -1, -2, 0, 0, 1])
            if at >= self.now and (lead < 130000 or r.random() < 0.01):
                self.now = at
                return at
        self.now += r.choice([0, 0, 0, 1, 3, 20, 70, 200, 700])
        return self.now

    def send(self, at, who, line):
        assert len(line) <= 255 and '\n' not in line
        self.inputs.append('%d %s %s\n' % (at, who or '-', line))
        answer = self.t.command(at, who, line)
        self.answers.append(''.join(text + '\n' for text in answer))
        self.done += 1
        return answer

    # ---- openings

    def random_start(self):
        r = self.r
        for _ in range(60):
            men = {}
            rights = ''
            if r.random() < 0.35:
                for colour, rank in ((WHITE, 1), (BLACK, 8)):
                    men[(5, rank)] = (colour, 'K')
                    for f in (1, 8):
                        if r.random() < 0.7:
                            men[(f, rank)] = (colour, 'R')
                rights = ''.join(c for c in 'KQkq' if r.random() < 0.75 and RIGHTS[c][1] in men)
            else:
                a, b = r.sample(SQUARES, 2)
                men[a], men[b] = (WHITE, 'K'), (BLACK, 'K')
            side = r.choice('wb')
            target = '-'
            if r.random() < 0.3:
                d, f = up(side), r.randint(1, 8)
                rank = 6 if side == WHITE else 3
                free = [(f, rank), (f, rank + d)]
                pawn = (f, rank - d)
                if pawn not in men and not any(sq in men for sq in free):
                    men[pawn] = (other(side), 'P')
                    target = square_name((f, rank))
                    for g in (f - 1, f + 1):
                        if 1 <= g <= 8 and (g, rank - d) not in men and r.random() < 0.7:
                            men[(g, rank - d)] = (side, 'P')
            else:
                free = []
            heavy = r.choice(['QRBNPP', 'PPPP', 'QRR', 'NNNB', 'BBP', 'QQQQ', 'RBNP'])
            for _ in range(r.choice([1, 2, 3, 4, 6, 10, 20, 29])):
                sq, kind = r.choice(SQUARES), r.choice(heavy)
                if sq in men or sq in free or kind == 'P' and sq[1] in (1, 8):
                    continue
                men[sq] = (r.choice('wb'), kind)
            if any(sum(man[0] == colour for man in men.values()) > 16 for colour in (WHITE, BLACK)):
                continue
            half = r.choice([0, 0, 1, 60, 96, 99, 100, 140, 147, 148, 149, 149])
            full = r.choice([1, 1, 2, 50, 9998, 9999])
            p = Position(men, side, frozenset(rights), square_of(target) if target != '-' else None, half, full)
            if valid(p) or r.random() < 0.02:
                return fen_write(p)
        return INITIAL_FEN

    def open(self):
        r = self.r
        initial = pick(r, [(1, 4), (2, 4), (5, 4), (10, 4), (60, 5), (300, 6), (3600, 6), (86400, 6), (0, 0.3),
                           (86401, 0.3)])
        increment = pick(r, [(0, 8), (1, 3), (2, 3), (30, 2), (60, 1), (61, 0.3)])
        words, script = str(initial), []
        if r.random() < 0.35:
            moves = pick(r, [(1, 5), (2, 5), (3, 5), (5, 3), (20, 2), (255, 1), (0, 0.3), (256, 0.3)])
            second = pick(r, [(1, 5), (10, 5), (30, 5), (86400, 2), (0, 0.3), (86401, 0.3)])
            words = '%d/%d:%d' % (moves, initial, second)
        start = pick(r, [(None, 6), ('known', 8), ('random', 5), ('bad', 1.2), ('mutated', 0.8), ('script', 8),
                         ('bare', 1)])
        if start in ('known', 'mutated'):
            fen = r.choice(STARTS).format(h=r.choice([0, 0, 0, 10, 94, 97, 98, 99, 100, 140, 145, 147, 148, 149]))
            fen = self.mutate(fen) if start == 'mutated' else fen
        elif start == 'random':
            fen = self.random_start()
        elif start == 'bad':
            fen = r.choice(BAD_STARTS)
        elif start == 'bare':
            fen = r.choice(BARE)
            words, increment = '1', 0
        elif start == 'script':
            if not self.scripts:            # each comes once before any comes again
                self.scripts = r.sample(SCRIPTS, len(SCRIPTS))
            fen, script = self.scripts.pop()
            script = script.replace('claim ', 'claim_').replace('three ', 'three_') .replace('fifty ', 'fifty_').split()
            start = fen
            if r.random() < 0.8:
                words, increment = r.choice(['3600', '300']), 0
        line = 'open %s %s %d' % (r.choice(['white', 'black']), words, increment)
        line = (line if start is None else line + ' ' + fen)[:255]
        who = None if r.random() < 0.02 else r.choice(PLAYERS)
        answer = self.send(self.moment(), who, line)[0].split(' ')
        if answer[:2] == ['ok', 'open']:
            number = int(answer[2])
            style = pick(r, [('any', 5), ('knights', 6), ('greedy', 4), ('quiet', 5), ('pawns', 4), ('hunt', 3)])
            self.habits[number] = {'style': style, 'claims': r.choice([0, 0, 0.03, 0.15]),
                                   'offers': r.choice([0, 0.02, 0.1, 0.3]), 'resigns': r.choice([0, 0, 0.01]),
                                   'script': script}
            if script:
                self.habits[number]['claims'] = r.choice([0, 0, 0.05, 0.3])
            if r.random() < 0.9:
                others = [name for name in PLAYERS if name != who]
                self.send(self.moment(), r.choice(others), 'join %d' % number)
                self.focus, self.streak = number, r.choice([3, 10, 40]) if not script else 30

    # ---- moves

    def choose_move(self, f, style):
        r = self.r
        p = f.present
        moves = legal_moves(p)
        x = r.random()
        calm = [m for m in moves if p.men[m[0]][1] != 'P' and m[1] not in p.men]
        if style == 'knights' and x < 0.9:
            if f.ply >= 2:
                there, back, _ = f.moves[-2][3]
                if (back, there, None) in moves and r.random() < 0.93:
                    return back, there, None
            return r.choice([m for m in calm if p.men[m[0]][1] == 'N'] or calm or moves)
        if style == 'quiet' and x < 0.96:
            return r.choice(calm or moves)
        if style in ('greedy', 'hunt') and x < 0.9:
            named = texts(p)
            mates = [m for text, m in named.items() if text.endswith('#')]
            if mates:
                return r.choice(mates)
            if r.random() < 0.4:
                for m in moves:
                    q = following(p, m)
                    if not legal_moves(q) or listed_dead(q):
                        return m
            checks = [m for text, m in named.items() if text.endswith('+')]
            if style == 'hunt' and checks and r.random() < 0.8:
                return r.choice(checks)
            takes = [m for m in moves if m[1] in p.men]
            return r.choice((takes if r.random() < 0.7 else checks) or moves)
        special = [m for m in moves if is_castling(p, m) or is_en_passant(p, m)]
        if special and r.random() < 0.6:
            return r.choice(special)
        if style == 'pawns' and x < 0.8:
            pawns = [m for m in moves if p.men[m[0]][1] == 'P']
            return r.choice(pawns or moves)
        return r.choice(moves)

    def spell(self, p, m):
        return self.r.choice(sorted(text for text, n in texts(p).items() if n == m))

    def wrong_text(self, p):
        """A text that is mostly near to one that names a legal move."""
        r = self.r
        m = r.choice(legal_moves(p))
        whole, bare = san(p, m), bare_san(p, m)
        kind = r.choice(['suffix', 'needless', 'unlegal', 'square', 'mutated',
                         'known', 'promotion', 'case', 'capture', 'attacked'])
        if kind == 'suffix':
            return bare + r.choice(['+', '#', '!', '++', '?', '=', 'e.p.'])
        if kind == 'needless':
            if p.men[m[0]][1] == 'P':
                return square_name(m[0])[:1] + bare
            a = square_name(m[0])
            return bare[0] + r.choice([a[0], a[1], a]) + bare[1:]
        if kind == 'unlegal':
            legal = legal_moves(p)
            near = [n for n in candidates(p) if n not in legal]
            if near:
                return coordinate(r.choice(near))
            return coordinate(m) + 'q'
        if kind == 'attacked':
            own = [a for a in p.men if p.men[a][0] == p.side]
            near = [(a, b) for a in own for b in SQUARES if attacks(p.men, a, b)]
            if near:
                a, b = r.choice(near)
                return coordinate((a, b, None))
            return 'a1a2'
        if kind == 'square':
            return coordinate((r.choice(SQUARES), r.choice(SQUARES), r.choice([None, None, 'Q', 'N'])))
        if kind == 'mutated':
            return self.mutate(whole).replace(' ', '_') or '-'
        if kind == 'promotion':
            return r.choice([bare.split('=')[0], bare + '=Q', bare + '=K', bare.split('=')[0] + 'Q',
                             coordinate(m) + 'Q', coordinate(m) + 'k', coordinate(m)[:4], bare.split('=')[0] + '=q',
                             coordinate(m)[:4] + 'p'])
        if kind == 'case':
            return r.choice([whole.lower(), whole.upper(), whole.swapcase(), coordinate(m).upper()])
        if kind == 'capture':
            return bare.replace('x', '') if 'x' in bare else bare[:1] + 'x' + bare[1:]
        return r.choice(['0-0', 'O-O', 'O-O-O', '0-0-0', 'e1g1', 'e1c1', 'e8g8', 'e8c8', 'o-o', 'O-O+', 'O-O-O-O',
                         'e1h1', '--', 'Z0', 'e2e4', 'P', 'Pe4', 'e2-e4', 'Ng1-f3', 'x' * 200])

    def mutate(self, text):
        r = self.r
        marks = 'KQRBNPkqrbnp12345678/-wbxabcdefgh09 +#=O_'
        for _ in range(r.choice([1, 1, 1, 2])):
            k = r.randint(0, len(text))
            c = r.choice(marks)
            text = r.choice([text[:k] + c + text[k:], text[:k] + c + text[k + 1:], text[:k] + text[k + 1:],
                             text[:k] + text[k:k + 1] + text[k:]])
        return text

    # ---- one command to a game

    def play(self, number):
        r = self.r
        game = self.t.games.get(number)
        if game is None:
            word = r.choice(['join', 'offer', 'accept', 'decline', 'resign', 'flag', 'drop', 'show', 'fen', 'pgn'])
            line = r.choice(['%s %d' % (word, number), '%s %d' % (word, number), 'move %d 0 e4' % number,
                             'claim %d 0 three' % number])
            self.send(self.moment(read=True), r.choice(PLAYERS + [None]), line)
            return
        f = game.fields()
        if f.joined is None:
            self.play_unjoined(number, f)
        elif f.ending is not None:
            self.play_over(number, f)
        else:
            self.play_running(number, f)

    def play_unjoined(self, number, f):
        r = self.r
        opener = f.opened.who
        stranger = r.choice([name for name in PLAYERS if name != opener])
        kind = pick(r, [('join', 12), ('same', 2), ('drop', 1), ('drop4', 1), ('act', 3), ('act4', 1), ('read', 3),
                        ('noname', 0.5)])
        act = r.choice(['offer', 'accept', 'decline', 'resign', 'flag'])
        line = r.choice(['%s %d' % (act, number), 'move %d 0 e4' % number, 'claim %d 0 fifty' % number])
        if kind == 'read':
            self.look(number, ['show', 'fen', 'pgn'])
            return
        who = opener if kind in ('same', 'drop', 'act') else None if kind == 'noname' else stranger
        line = line if 'act' in kind else ('drop %d' if 'drop' in kind else 'join %d') % number
        self.send(self.moment(read=kind == 'noname'), who, line)

    def look(self, number, words):
        word = self.r.choice(words)
        self.send(self.moment(read=True), self.r.choice(PLAYERS + [None]), '%s %d' % (word, number))

    def play_over(self, number, f):
        r = self.r
        seated = r.choice([f.seats[WHITE], f.seats[BLACK]])
        kind = pick(r, [('drop', 5), ('drop4', 1), ('act', 4), ('read', 7)])
        if kind == 'read':
            self.look(number, ['show', 'show', 'fen', 'pgn'])
        elif kind == 'act':
            word = r.choice(['offer', 'accept', 'decline', 'resign', 'flag', 'join'])
            line = r.choice(['%s %d' % (word, number), 'move %d %d e4' % (number, f.ply),
                             'claim %d %d three' % (number, f.ply)])
            self.send(self.moment(), seated, line)
        else:
            self.send(self.moment(), seated if kind == 'drop' else r.choice(PLAYERS), 'drop %d' % number)

    def play_running(self, number, f):
        r = self.r
        habit = self.habits.get(number, self.habit)
        full = f.ply == self.plies
        p = f.present
        mover, waiting = f.seats[f.side], f.seats[other(f.side)]
        either = r.choice([mover, waiting])
        at = self.moment(f)
        standing = f.offers[WHITE] or f.offers[BLACK]
        offerers = [f.seats[s] for s in (WHITE, BLACK) if f.offers[s]]
        answerers = [f.seats[other(s)] for s in (WHITE, BLACK) if f.offers[s]]
        claims = 100 * habit['claims']
        if claims and (times(p, f.line) >= 3 or p.half >= 100):
            claims = 30
        if habit['script'] and r.random() < 0.92:
            text = habit['script'].pop(0)
            if text.startswith('claim_'):
                _, test, *rest = text.split('_')
                self.send(at, mover, ' '.join(['claim', str(number), str(f.ply), test] + rest))
                return
            m = reads(p, text)
            if m is not None:
                if r.random() < 0.04 + habit['claims'] / 2:
                    self.claim(number, f, at, mover)
                    habit['script'].insert(0, text)
                else:
                    self.send(at, mover, 'move %d %d %s' % (number, f.ply, self.spell(p, m)))
                return
            habit['script'] = []
        early = f.ply < 2 and r.random() < 0.5
        castle = any(RIGHTS[c][2] == p.side for c in p.rights)
        kind = pick(r, [
            ('castle', 6 if castle and not habit['script'] else 0), ('answer', 40 if early and standing else 0),
            ('offer', 15 if early else 0), ('move', 0 if habit['script'] else 8 if full else 75), ('badtext', 3),
            ('ply', 2), ('notyours', 2), ('offer', 100 * habit['offers'] if not standing else 2),
            ('answer', 9 if standing else 0), ('accept', 1), ('decline', 1),
            ('resign', 100 * habit['resigns'] + (2 if full else 0)), ('claim', claims),
            ('wrongclaim', 0 if habit['script'] else claims / 4 + 0.3), ('flag', 2), ('drop', 0.5), ('join', 0.5),
            ('stranger', 0.7), ('noname', 0.5), ('read', 8)])
        move, claim = 'move %d %d ' % (number, f.ply), 'claim %d %d ' % (number, f.ply)
        if kind == 'claim':
            self.claim(number, f, at, mover)
        elif kind == 'move':
            self.send(at, mover, move + self.chosen(f, habit))
        elif kind == 'castle':
            text = r.choice(['O-O', 'O-O-O', 'O-O', 'O-O-O', 'O-O+', 'O-O-O+', 'e1g1', 'e1c1', 'e8g8', 'e8c8'])
            self.send(at, mover, move + text)
        elif kind == 'badtext':
            self.send(at, mover, move + self.wrong_text(p))
        elif kind == 'ply':
            ply = r.choice([f.ply + 1, max(0, f.ply - 1), 0, self.plies, f.ply + 2, 4294967295])
            lines = ['move %d %d %s' % (number, ply, self.chosen(f, habit)), 'claim %d %d three' % (number, ply)]
            self.send(at, either, r.choice(lines))
        elif kind == 'notyours':
            m = self.choose_move(f, habit['style'])
            lines = [move + self.spell(p, m), claim + 'three', claim + 'fifty ' + self.spell(p, m)]
            self.send(at, waiting, r.choice(lines))
        elif kind == 'answer':
            who = r.choice(answerers if r.random() < 0.8 else offerers)
            self.send(at, who, '%s %d' % (r.choice(['accept', 'decline', 'decline', 'decline']), number))
        elif kind == 'wrongclaim':
            line, x = claim + r.choice(['three', 'fifty']), r.random()
            if x < 0.65:
                line += ' ' + (self.chosen(f, habit) if x < 0.5 else self.wrong_text(p))
            self.send(at, mover, line)
        elif kind in ('drop', 'join'):
            self.send(at, r.choice(PLAYERS), '%s %d' % (kind, number))
        elif kind == 'stranger':
            word = r.choice(['offer', 'accept', 'decline', 'resign', 'flag', 'drop'])
            strangers = [name for name in PLAYERS if name not in (mover, waiting)]
            self.send(at, r.choice(strangers), '%s %d' % (word, number))
        elif kind == 'noname':
            self.send(at, None, '%s %d' % (r.choice(['offer', 'resign', 'flag', 'join', 'drop']), number))
        elif kind == 'read':
            word = pick(r, [('show', 6), ('fen', 3), ('pgn', 2)])
            self.send(self.moment(read=True), r.choice([either, either, None]), '%s %d' % (word, number))
        else:
            self.send(at, either, '%s %d' % (kind, number))
        if r.random() < 0.1 and self.done < self.n:
            self.send(self.moment(read=True), either, 'show %d' % number)
        if number in self.t.games and self.t.games[number].fields().ending and r.random() < 0.5:
            self.send(self.moment(read=True), either, 'pgn %d' % number)

    def chosen(self, f, habit):
        """A text of a legal move, as a game is played."""
        return self.spell(f.present, self.choose_move(f, habit['style']))

    def claim(self, number, f, at, mover):
        """A claim that is right where one can be."""
        r = self.r
        p = f.present
        right = []
        if times(p, f.line) >= 3:
            right.append('three')
        if p.half >= 100:
            right.append('fifty')
        moves = legal_moves(p)
        last = [m for m in moves if not legal_moves(following(p, m))]
        for m in last + r.sample(moves, min(12, len(moves))):
            for fifty in (False, True):
                if claim_is_right(f.line, fifty, m):
                    right.append(('fifty ' if fifty else 'three ') + self.spell(p, m))
        if right and r.random() < 0.75:
            text = r.choice(right)
        elif right:             # by the other test, or one move too early
            text = r.choice(right)
            text = text.replace('three', 'FIFTY').replace('fifty', 'three').lower() \
                if ' ' not in text else \
                ('fifty ' if text.startswith('three') else 'three ') + text[6:]
        else:
            text = r.choice(['three', 'fifty'])
            if r.random() < 0.5:
                text += ' ' + self.spell(p, r.choice(moves))
        self.send(at, mover, 'claim %d %d %s' % (number, f.ply, text))

    # ---- the whole

    def step(self):
        r = self.r
        live = len(self.t.games)
        x = r.random()
        if x < 0.006:
            self.send(self.moment(read=True), r.choice(PLAYERS + [None]), 'list')
            return
        if x < 0.012:
            self.send(self.moment(), r.choice(PLAYERS + [None]), r.choice(BAD_LINES))
            return
        if x < 0.017:
            line = self.mutate(r.choice(self.inputs).split(' ', 2)[2][:-1])[:255] if self.inputs else 'list'
            self.send(self.moment(), r.choice(PLAYERS), line)
            return
        if x < 0.020 and self.with_bytes:
            line = (self.inputs and r.choice(self.inputs).split(' ', 2)[2][:-1]) or 'list'
            k = r.randint(0, len(line))
            line = r.choice([line + '\r', line + '\r\r', line + '\r',
                             line[:k] + r.choice('\0\x80\xe9\xff\r') + line[k:]])[:255]
            self.send(self.moment(), r.choice(PLAYERS), line)
            return
        if x >= 0.992:
            fen = self.mutate(r.choice(STARTS).format(h=149)) if x > 0.997 else r.choice(BAD_STARTS)
            self.send(self.moment(), r.choice(PLAYERS), 'open white 60 0 ' + fen)
            return
        if x < 0.022:
            number = r.choice([0, self.t.last + 1, TOP, r.randint(1, self.t.last + 1)])
            self.play(number)
            return
        wanted = min(self.games, 10)
        if live == 0 or x < (0.10 if live < wanted else 0.028):
            self.open()
            return
        if self.streak <= 0 or self.focus not in self.t.games:
            numbers = sorted(self.t.games)
            weights = [1 if self.t.games[k].fields().ending else 4 for k in numbers]
            self.focus = r.choices(numbers, weights)[0]
            self.streak = r.choice([1, 3, 10, 40])
        self.streak -= 1
        if self.t.games[self.focus].fields().ending is not None:
            self.streak = min(self.streak, r.choice([1, 2, 3]))
        self.play(self.focus)

    def run(self):
        while self.done < self.n:
            self.step()
        del self.inputs[self.n:], self.answers[self.n:]
