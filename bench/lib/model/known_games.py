"""Games that were played, each to its last move, as their SAN."""

GAMES = {
    # Morphy against the Duke of Brunswick and Count Isouard, Paris 1858
    'Morphy, Paris 1858': '''
        e4 e5 Nf3 d6 d4 Bg4 dxe5 Bxf3 Qxf3 dxe5 Bc4 Nf6 Qb3 Qe7 Nc3 c6 Bg5 b5 Nxb5 cxb5 Bxb5+ Nbd7 O-O-O Rd8 Rxd7 Rxd7
        Rd1 Qe6 Bxd7+ Nxd7 Qb8+ Nxb8 Rd8#''',
    # Anderssen against Kieseritzky, London 1851
    'Anderssen, London 1851': '''
        e4 e5 f4 exf4 Bc4 Qh4+ Kf1 b5 Bxb5 Nf6 Nf3 Qh6 d3 Nh5 Nh4 Qg5 Nf5 c6 g4 Nf6 Rg1 cxb5 h4 Qg6 h5 Qg5 Qf3 Ng8 Bxf4
        Qf6 Nc3 Bc5 Nd5 Qxb2 Bd6 Bxg1 e5 Qxa1+ Ke2 Na6 Nxg7+ Kd8 Qf6+ Nxf6 Be7#''',
    # Byrne against Fischer, New York 1956
    'Fischer, New York 1956': '''
        Nf3 Nf6 c4 g6 Nc3 Bg7 d4 O-O Bf4 d5 Qb3 dxc4 Qxc4 c6 e4 Nbd7 Rd1 Nb6 Qc5 Bg4 Bg5 Na4 Qa3 Nxc3 bxc3 Nxe4 Bxe7 Qb6
        Bc4 Nxc3 Bc5 Rfe8+ Kf1 Be6 Bxb6 Bxc4+ Kg1 Ne2+ Kf1 Nxd4+ Kg1 Ne2+ Kf1 Nc3+ Kg1 axb6 Qb4 Ra4 Qxb6 Nxd1 h3 Rxa2
        Kh2 Nxf2 Re1 Rxe1 Qd8+ Bf8 Nxe1 Bd5 Nf3 Ne4 Qb8 b5 h4 h5 Ne5 Kg7 Kg1 Bc5+ Kf1 Ng3+ Ke1 Bb4+ Kd1 Bb3+ Kc1 Ne2+
        Kb1 Nc3+ Kc1 Rc2#''',
    # Kasparov against Topalov, Wijk aan Zee 1999
    'Kasparov, Wijk aan Zee 1999': '''
        e4 d6 d4 Nf6 Nc3 g6 Be3 Bg7 Qd2 c6 f3 b5 Nge2 Nbd7 Bh6 Bxh6 Qxh6 Bb7 a3 e5 O-O-O Qe7 Kb1 a6 Nc1 O-O-O Nb3 exd4
        Rxd4 c5 Rd1 Nb6 g3 Kb8 Na5 Ba8 Bh3 d5 Qf4+ Ka7 Rhe1 d4 Nd5 Nbxd5 exd5 Qd6 Rxd4 cxd4 Re7+ Kb6 Qxd4+ Kxa5 b4+ Ka4
        Qc3 Qxd5 Ra7 Bb7 Rxb7 Qc4 Qxf6 Kxa3 Qxa6+ Kxb4 c3+ Kxc3 Qa1+ Kd2 Qb2+ Kd1 Bf1 Rd2 Rd7 Rxd7 Bxc4 bxc4 Qxh8 Rd3
        Qa8 c3 Qa4+ Ke1 f4 f5 Kc1 Rd2 Qa7''',
}

# Games that end by themselves.
MATES = {
    'the fool’s mate': 'f3 e5 g4 Qh4#',
    'the scholar’s mate': 'e4 e5 Bc4 Nc6 Qh5 Nf6 Qxf7#',
    'Légal’s mate': 'e4 e5 Nf3 d6 Bc4 Bg4 Nc3 g6 Nxe5 Bxd1 Bxf7+ Ke7 Nd5#',
    'a smothered mate': 'd4 Nf6 c4 e5 dxe5 Ng4 Bf4 Nc6 Nf3 Bb4+ Nbd2 Qe7 a3 Ngxe5 axb4 Nd3#',
    'Morphy, Paris 1858': GAMES['Morphy, Paris 1858'],
}
# Sam Loyd's stalemate
STALEMATE = 'e3 a5 Qh5 Ra6 Qxa5 h5 Qxc7 Rah6 h4 f6 Qxd7+ Kf7 Qxb7 Qd3 Qxb8 Qh7 Qxc8 Kg6 Qe6'
# to a bishop alone, which never mates, against a rook, which is to move; found by taking what can be taken
BISHOP_ALONE = '''
    a4 h6 h4 b5 axb5 e5 Rxa7 Qxh4 Rxc7 Qxf2+ Kxf2 Be7 Rxh6 gxh6 Rxd7 Nxd7 b4 Bxb4 Nf3 Bxd2 Bxd2 Ra2 Bxh6 Rxc2 Qxd7+
    Bxd7 Nxe5 Rxe2+ Bxe2 Rxh6 Nxd7 Kxd7 b6 Rxb6 Bc4 Rxb1 Bxf7 Rg1 Bxg8 Rxg2+ Ke3'''
# to two bare kings, found by taking what can be taken
DEAD = '''
    b3 Nc6 e4 b5 Bxb5 Na5 Bxd7+ Kxd7 e5 Nxb3 cxb3 h6 Na3 g5 d3 Rb8 Bxg5 hxg5 Nc4 Rxh2 Rxh2 Rxb3 axb3 a5 Nxa5 Nh6 Rxh6
    Bxh6 Ne2 Bg7 Ng1 Bxe5 f4 Bxa1 Qxa1 gxf4 g4 fxg3 Qa3 e5 Qa4+ Ke6 b4 Qxd3 Qa2+ Qd5 Qxd5+ Kxd5 b5 c6 Nxc6 f5 Nxe5 Kxe5
    Ne2 Bb7 Nxg3 Bd5 Nxf5 Kxf5 Ke2 Bf3+ Kxf3 Kf6 Kf2 Kf5 Ke1 Ke4 Ke2 Kf5 Ke3 Ke6 Kd3 Kd6 Kc2 Kc7 Kb2 Kc8 b6 Kb8 b7
    Kxb7'''
