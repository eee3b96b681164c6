"""Scenes of bench/browser/page: a PGN that is put on the board on which a game is looked at again."""

from evening import paste
from readable import on_screens

LICHESS = '''[Event "Rated blitz game"]
[Site "https://lichess.org/abcdefgh"]
[White "anna"]
[Black "bert"]
[Result "1-0"]
[Variant "Standard"]
[TimeControl "300+3"]
[Opening "King's Pawn Game: Wayward Queen Attack"]

1. e4 { [%eval 0.17] [%clk 0:05:00] } 1... e5 { [%clk 0:04:59] } 2. Qh5?! { (0.19 → -0.30) Inaccuracy. Nf3 was best. } \
{ [%eval -0.3] [%clk 0:04:58] } (2. Nf3 Nc6 3. Bb5 a6 4. Ba4 Nf6 5. O-O) 2... Nc6 { [%clk 0:04:50] } 3. Bc4 Nf6?? \
{ Checkmate is now unavoidable. } (3... g6 4. Qf3 Nf6 5. Ne2) 4. Qxf7# { [%clk 0:04:41] } { White wins by checkmate. } \
1-0
'''
CHESS_COM = '''[Event "Live Chess"]
[Site "Chess.com"]
[White "anna"]
[Black "bert"]
[Result "0-1"]
[TimeControl "180"]

1. f3 {[%clk 0:02:59.9]} 1... e5 {[%clk 0:02:58.1]} 2. g4 {[%clk 0:02:57]} 2... Qh4# {[%clk 0:02:55.3]} 0-1'''
CHESSBASE = '''\ufeff[Event "The "Open" 2020"]\r
[White "Reti, R."]\r
[Black "Tartakower, S."]\r
[Result "1/2-1/2"]\r
[PlyCount "6"]\r
\r
{[%evp 0,6,19,-5] A long comment\r
[over lines] with (brackets) and 1. e4 $1 in it} 1. e4 $1 {good} e5 $6 (1... c5 $5 2. Nf3 $14 (2. c3 d5 (2... Nf6\r
{[%cal Gd2d4][%csl Ra1]} 3. e5 $10) 3. exd5) 2... d6) (1... e6 {French} 2. d4 d5 $132) 2. Nf3 $146 Nc6 3. Bb5 a6 $138\r
4. Ba4 { } Nf6 5. O-O $18 1/2-1/2\r
'''
LINES = '''% a line that is none of it
[Event "One"] [Site "two"] [Result "*"]
[White "A"]
1. e4 ; the <b>king's</b> pawn { no comment begins here
e5 ; 2. f4?
% 2. f4 exf4
2. Nf3 Nc6 3.Bb5 *

[Event "The second game"]

1. d4 *
'''
BY_HAND = '''1.e4 e5 2.♘f3 ♞c6 3. Bf1–c4 Bc5 4.0-0 Nf6 5.d3 o-o 6.Bg5 h6 7.Bh4 g5!? 8.Bg3 d6 ± 9.c3 a6 +/- 10. Nbd2!! \
Ba7 ?!
11. Re1 ! ... 1/2'''
WRONG = '''[Event "One"]

1. e4 e5
2. Nf3 Nc6
3. Bb5 Ke7 4. O-O Qxd1 5. Rxd1
'''
WRONG_BESIDE = '''1. e4 e5 (1... c5 2. Nf3 Nf3 3. d4 (3. c3) 3... cxd4) 2. Nf3 Nc6'''
CUT_SHORT = '''1. e4 e5
2. Nf3 {the plan is clear: 2... Nc6'''
TREE = '#again-moves'


def pasted_games(hall):
    """PGNs as they are met: with signs and numbers behind moves, comments of both kinds, clocks, variations within each
    other, lines that are left out, tags that are spoilt, and moves as people write them, of which the PGN that is
    copied has all; and what cannot be read is told with its place."""
    sue = hall.sue
    hall.sit('sue')
    sue.goes('again').finds('#again-board', 'the board')

    def puts(text, moves, *, note='', again=True):
        paste(sue, text)
        sue.shows(TREE, moves, 'its moves: ' + moves)
        sue.until(lambda: note in sue.text('#again-note') and bool(note) == bool(sue.text('#again-note')),
                  'what is said of it: %r' % note)
        sue.click('#again-copy-pgn').reads('#again-note', 'PGN is copied')
        copied = sue.clipboard()
        if again:
            paste(sue, copied)
            sue.shows(TREE, moves, 'the same from its own PGN')
            sue.click('#again-copy-pgn')
            sue.until(lambda: sue.clipboard() == copied, 'which is the same again')
        return copied

    copied = puts(LICHESS, '1.e4e52.Qh5?!(0.19 → -0.30) Inaccuracy. Nf3 was best.(2.Nf3Nc63.Bb5a64.Ba4Nf65.O-O)2…Nc6'
                  '3.Bc4Nf6??Checkmate is now unavoidable.(3…g64.Qf3Nf65.Ne2)4.Qxf7#White wins by checkmate.')
    sue.is_so('2. Qh5 $6 ' in copied and '[%clk 0:04:41]' in copied, 'the PGN has signs and clocks: ' + copied)
    sue.click('#again-last').shows('#again-clocks', 'Clocks: 4:41 – 4:50', 'the clocks of the position')
    sue.reads('#again-who', 'anna – bert')
    sue.click('#again-first').until(lambda: not sue.text('#again-clocks'), 'none at the start')
    puts(CHESS_COM, '1.f3e52.g4Qh4#')
    sue.click('#again-last').shows('#again-clocks', 'Clocks: 2:57 – 2:55', 'clocks with tenths')
    puts(CHESSBASE, 'A long comment [over lines] with (brackets) and 1. e4 $1 in it1.e4!goode5?!(1…c5!?2.Nf3+=(2.c3d5'
         '(2…Nf63.e5=)3.exd5)2…d6)(1…e6French2.d4d5⇆)2.Nf3NNc63.Bb5a6⊕4.Ba4Nf65.O-O+-')
    puts(LINES, '1.e4the <b>king\'s</b> pawn no comment begins heree52. f4?2.Nf3Nc63.Bb5')
    copied = puts(BY_HAND, '1.e4e52.Nf3Nc63.Bc4Bc54.O-ONf65.d3O-O6.Bg5h67.Bh4g5!?8.Bg3d6±9.c3a6±10.Nbd2!!Ba7?!11.Re1!')
    sue.is_so(copied.rstrip().endswith('1/2-1/2') and '[Result "1/2-1/2"]' in copied, 'its result: ' + copied)
    puts(WRONG, '1.e4e52.Nf3Nc63.Bb5Ke74.O-O', again=False,
         note='Line 5: 4… Qxd1 cannot be played there. What stands before it is on the board.')
    puts(WRONG_BESIDE, '1.e4e5(1…c52.Nf3)2.Nf3Nc6', again=False,
         note='Line 1: 2… Nf3 cannot be played there. The rest of this variation is left out.')
    puts(CUT_SHORT, '1.e4e52.Nf3the plan is clear: 2... Nc6', again=False,
         note='Line 2: the comment that begins here has no end')
    paste(sue, '1. Sf3 d5')
    sue.reads('#again-note', 'Line 1: 1. Sf3 cannot be played there')
    paste(sue, '[FEN "8/8/8/8/8/8/8/8 w - - 0 1"]\n\n1. e4 *')
    sue.reads('#again-note', 'That is no FEN of a valid position.')
    sue.run('localStorage.setItem("language", "de")')
    sue.reload().finds('#again-board', 'the page in German')
    paste(sue, '1. Sf3 d5 2. Nc3 Sf6')
    sue.shows(TREE, '1.Sf3d52.Sc3Sf6', 'there the letters of German are read too')
    paste(sue, LICHESS)
    for _ in on_screens(sue, 'a PGN'):
        pass
    sue.run('localStorage.removeItem("language"); localStorage.removeItem("again")')
    sue.is_so(sue.complaints() == [], 'and the console is quiet')


PASTED_GAMES = (pasted_games,)
