// The page's words in Portuguese, by the English text (language.js).

export const WORDS = {
  'Draw': 'Empate',
  'The note is copied.': 'A nota foi copiada.',
  'Adjourn game {0}?': 'Adiar a partida {0}?',
  'This browser keeps nothing: copy the note, or write it down.':
    'Este navegador não guarda nada: copie a nota ou anote-a.',
  'A move was made since the note was copied.': 'Desde que a nota foi copiada, um lance foi feito.',
  '{0}: {1}': '{0}: {1}',
  'Position': 'Posição',
  'Times': 'Tempo',
  'Game {0}, {1} {2}': 'Partida {0}, {1} {2}',
  'adjourned': 'adiada em',
  'as it stood': 'como estava em',
  '{0}: {1}, {2} left': '{0}: {1}, restam {2}',
  'Position: {0}': 'Posição: {0}',
  'Times: {0}': 'Tempo: {0}',
  'It could not be copied: write it down.': 'Não foi possível copiar: anote-a.',
  'The connection broke before the answer came.': 'A conexão caiu antes da resposta.',
  'Game {0} is one of other players now.': 'A partida {0} agora é de outros jogadores.',
  'It was not adjourned: the game has ended before. {0}.': 'Ela não foi adiada: a partida já tinha terminado. {0}.',
  'It is not closed: the game goes on.': 'Ela não está encerrada: a partida continua.',
  'It is not closed. {0}': 'Ela não está encerrada. {0}',
  'It is not closed: there is no connection. Nothing was sent.':
    'Ela não está encerrada: não há conexão. Nada foi enviado.',
  'The connection broke before the answer came. Once it is there again, the game is looked at.':
    'A conexão caiu antes da resposta. Assim que voltar, a situação da partida será verificada.',
  'Forget the note of game {0}?': 'Esquecer a nota da partida {0}?',
  'Forget it': 'Esquecer',
  'This browser knows its position and its clocks no more.':
    'Este navegador deixará de conhecer a posição e os relógios.',
  'Close it as a draw': 'Encerrar com empate',
  'Go on with it': 'Retomar',
  'Copy the note': 'Copiar a nota',
  'Game {0}: {1}': 'Partida {0}: {1}',
  'It is not closed yet.': 'Ela ainda não está encerrada.',
  'Adjourned {0}. Game {1} stands in the record as a draw.': 'Adiada em {0}. A partida {1} consta como empate.',
  'Game {0} has left the table before it was seen how it ended: its PGN tells. It stood so {1}.':
    'A partida {0} saiu da lista antes que se visse como terminou: o PGN diz. Estava assim em {1}.',
  '{0} The game that goes on with it is the board’s.': '{0} Para o tabuleiro vale a partida que a retoma.',
  ['{0} It goes on as game {1}, which is the board’s: in a league’s round give --take BOARD={2} to chess-club '
    + 'start.']:
    '{0} Continua na partida {1}, que vale para o tabuleiro: na rodada de uma liga, acrescente --take TABULEIRO={2} '
    + 'a chess-club start.',
  'stands in the record as a draw': 'consta como empate',
  'is on the table no more': 'já não está na lista',
  '{0} had {1}': '{0} tinham {1}',
  ['This goes on with game {0}, which {1}; the game that is opened here is the board’s. The server has one time for '
    + 'both sides: {2}.']:
    'Isto retoma a partida {0}, que {1}; para o tabuleiro vale a partida aberta aqui. O servidor tem um só tempo '
    + 'para os dois lados: {2}.',
  'Both sides get': 'Os dois lados recebem',
  'the greater time, {0} ({1})': 'o tempo maior, {0} ({1})',
  'the mean, {0} ({1})': 'a média, {0} ({1})',
  'the smaller time, {0} ({1})': 'o tempo menor, {0} ({1})',
  '{0} gains {1}': '{0}: mais {1}',
  '{0} loses {1}': '{0}: menos {1}',
  'Clocks': 'Relógios',
  'as they stood behind the last move; whose turn it was had less at the end':
    'como estavam depois do último lance; quem tinha a vez tinha menos no fim',
  'Goes on with': 'Continua com',
  'The game has ended meanwhile.': 'Nesse meio-tempo a partida terminou.',
  ['A draw can be agreed on once both sides have made a move, so this game cannot be closed yet. Have both make '
    + 'their first move; or enter a resignation, which ends it too, and pair the two anew.']:
    'O empate só pode ser combinado depois de um lance de cada lado, por isso esta partida ainda não pode ser '
    + 'encerrada. Faça com que os dois joguem o primeiro lance, ou registre um abandono, que também a termina, e '
    + 'emparceire os dois de novo.',
  '{0}’s clock has run out: call the flag.': 'O tempo das {0} acabou: reclame a queda da seta.',
  'move {0}, {1} to move': 'lance {0}, {1} jogam',
  'This page is not encrypted: whoever is in its network can read links.':
    'Esta página não é criptografada: quem estiver na rede pode ler os links.',
  '{0} to {1} of {2}, {3} of them running': '{0} a {1} de {2}, {3} em andamento',
  'Game {0}': 'Partida {0}',
  'not connected': 'sem conexão',
  'not connected for {0} min': 'sem conexão há {0} min',
  '{0} is connected again.': '{0} está de novo com conexão.',
  'Spectators connected: {0}': 'Espectadores conectados: {0}',
  ', game {0}': ', partida {0}',
  'More': 'Mais',
  'Take off': 'Retirar',
  'Decide game {0}': 'Decidir a partida {0}',
  'By mistake': 'Por engano',
  'The game was begun by mistake': 'A partida começou por engano',
  'Was game {0} of {1} and {2} begun by mistake?': 'A partida {0} de {1} e {2} começou por engano?',
  'End it': 'Encerrar',
  ['Before both have moved only a resignation ends a game. It is entered for {0}, who is to move: in the record {1} '
    + 'has won without a game. In a league “Decide the result” puts down another. It cannot be taken back.']:
    'Antes que os dois tenham jogado, só um abandono encerra uma partida. Ele é registrado por {0}, que tem a vez: '
    + 'no registro, {1} venceu sem jogar. Numa liga, “Decidir o resultado” registra outro. Não pode ser '
    + 'desfeito.',
  'Both have moved meanwhile. Nothing was entered.': 'Enquanto isso, os dois jogaram. Nada foi registrado.',
  'White resigns': 'Brancas abandonam',
  'Black resigns': 'Pretas abandonam',
  'Flag': 'Seta',
  'Adjourn': 'Adiar',
  'Save PGN': 'Salvar PGN',
  'Game {0} is not on the table any more. Nothing was entered.':
    'A partida {0} já não está na lista. Nada foi registrado.',
  'Game {0}, {1} men on the board': 'Partida {0}, {1} peças no tabuleiro',
  'Last: {0}': 'Último: {0}',
  'Waiting for {0}': 'À espera das {0}',
  '{0} offers a draw': '{0} propõem empate',
  '{0}’s flag has fallen': 'A seta das {0} caiu',
  '{0} to move': '{0} jogam',
  'A draw can be agreed on once both sides have made a move.':
    'O empate só pode ser combinado depois de um lance de cada lado.',
  'Enter the resignation of {0} in game {1}?': 'Registrar o abandono de {0} na partida {1}?',
  '{0} wins with {1}. It cannot be taken back.': '{0} vence com as {1}. Não pode ser desfeito.',
  'Enter a draw between {0} and {1} in game {2}?': 'Registrar empate entre {0} e {1} na partida {2}?',
  '{0}, and its acceptance is entered for {1}. It cannot be taken back.':
    '{0}, e o aceite é registrado por {1}. Não pode ser desfeito.',
  'The offer of {0} stands': 'A proposta de {0} está de pé',
  'An offer is entered for {0}': 'Uma proposta é registrada por {0}',
  'Call the flag of {0} in game {1}?': 'Reclamar a queda da seta de {0} na partida {1}?',
  'It is called for {0}, against {1}, who is to move. The server’s clock decides.':
    'A reclamação é feita por {0}, contra {1}, a quem cabe jogar. O relógio do servidor decide.',
  'Take game {0} of {1} off the table?': 'Retirar da lista a partida {0} de {1}?',
  ' and ': ' e ',
  'It waits for a second player. No move has been made.': 'Ela espera um segundo jogador. Nenhum lance foi feito.',
  'Take it off': 'Retirar',
  'The lobby did not tell how the game stands. Try again.': 'O lobby não disse como está a partida. Tente de novo.',
  'The lobby did not tell the PGN. Try again.': 'O lobby não deu o PGN. Tente de novo.',
  'Game {0} is not on the table any more.': 'A partida {0} já não está na lista.',
  'The flag had fallen: the game is over by that.': 'A seta já tinha caído: com isso a partida terminou.',
  'There is no connection. Nothing was sent.': 'Não há conexão. Nada foi enviado.',
  'The connection broke before the answer came. Look how the game stands before you enter it again.':
    'A conexão caiu antes da resposta. Veja como está a partida antes de registrar de novo.',
  'The connection broke before the answer came. Do it again.': 'A conexão caiu antes da resposta. Faça de novo.',
  'Board': 'Tabuleiro',
  'The pawn becomes': 'O peão vira',
  '{0} put back': '{0}: volta à sua casa',
  'put back': 'volta à sua casa',
  '{0} on {1} held, for your next move': '{0} em {1} na mão, para o seu próximo lance',
  '{0} on {1} held. It may go to {2}': '{0} em {1} na mão. Casas possíveis: {2}',
  'not to {0}': 'não para {0}',
  'no move from {0}': 'nenhum lance a partir de {0}',
  'nothing to move now': 'agora não há nada para mover',
  'The pawn becomes a queen, knight, rook or bishop?': 'O peão vira dama, cavalo, torre ou bispo?',
  'held': 'na mão',
  'your next move': 'seu próximo lance',
  'can be taken': 'pode ser capturado',
  'can be reached': 'casa possível',
  'in check': 'em xeque',
  'last move': 'último lance',
  'move': 'lance',
  'joining': 'entrada',
  'offer': 'proposta',
  'acceptance': 'aceite',
  'answer': 'resposta',
  'resignation': 'abandono',
  'call': 'reclamação de tempo',
  'order': 'ordem',
  'claim': 'reclamação',
  'This game was taken off the table.': 'Esta partida foi retirada da lista.',
  'The flag has fallen.': 'A seta caiu.',
  'The arbiter, {0}, has entered {1} for {2}.': 'O árbitro, {0}, registrou {1} por {2}.',
  'you': 'você',
  '{0} has joined. The game has begun.': '{0} entrou. A partida começou.',
  '{0} offers a draw.': '{0} propõe empate.',
  'You have offered a draw.': 'Você propôs empate.',
  'You have declined the draw.': 'Você recusou o empate.',
  '{0} declines the draw.': '{0} recusa o empate.',
  'Your claim was wrong: your opponent has two minutes more, and your offer of a draw stands.':
    'Sua reclamação não procede: seu adversário recebe mais dois minutos, e sua proposta de empate fica de pé.',
  '{0} has claimed a draw wrongly: it stands as an offer, and {1} two minutes more.':
    '{0} reclamou empate sem razão: vale como proposta, e {1} mais dois minutos.',
  'you have': 'você recebe',
  'the opponent has': 'o adversário recebe',
  '20 seconds left.': 'Restam 20 segundos.',
  'Your next move: {0} to {1}.': 'Seu próximo lance: de {0} para {1}.',
  'Your next move is taken back.': 'Seu próximo lance foi cancelado.',
  'Your move from {0} to {1} cannot be made now.': 'Seu lance de {0} para {1} não é possível agora.',
  'A move is one word, such as e4, Nf3, exd5, O-O or e2e4.':
    'Um lance é uma palavra, como e4, Cf3, exd5, O-O ou e2e4.',
  '{0} may be a move of the king or of the rook. Type its squares, as e1e2.':
    '{0} pode ser um lance do rei ou, em inglês, da torre. Digite as casas, por exemplo e1e2.',
  'Your {0} has not been answered for {1} seconds: it may not have arrived. The clock runs on.':
    'Há {1} segundos sem resposta: {0}. Talvez nada tenha chegado. O relógio continua a correr.',
  'The connection broke before the answer came. Asking how the game stands …':
    'A conexão caiu antes da resposta. Verificando a situação da partida …',
  'The connection broke, but your {0} was taken.': 'A conexão caiu, mas o servidor recebeu: {0}.',
  'The connection broke before the answer to your {0} came, and the game has gone on.':
    'A conexão caiu antes da resposta ({0}), e a partida continuou.',
  'The connection broke, and no offer of yours stands: it was not taken so far, or it was answered.':
    'A conexão caiu, e não há proposta sua de pé: até agora não chegou, ou já teve resposta.',
  'The connection broke, and your {0} has not been taken so far. Look, and do it again.':
    'A conexão caiu, e o servidor ainda não recebeu: {0}. Veja e faça de novo.',
  'none: for the position on the board': 'nenhum: pela posição no tabuleiro',
  ', becomes a {0}': ', promove a {0}',
  '{0} opens another game. ': '{0} abre outra partida. ',
  'Look at game {0}': 'Ver a partida {0}',
  'Move {0} of {1}{2}': 'Lance {0} de {1}{2}',
  ', the start': ', o início',
  'The link is copied.': 'O link foi copiado.',
  '{0} has {1}': '{0}: {1}',
  'The game’s address is {0}': 'O endereço da partida é {0}',
  '{0} is copied.': '{0}: cópia feita.',
  'The {0} could not be copied. Save it instead.': '{0}: não foi possível copiar. Salve em arquivo.',
  'Draw offered: {0}': 'Empate proposto: {0}',
  'Your turn: {0}': 'Sua vez: {0}',
  'waiting': 'à espera',
  'Game {0} against {1}: your turn.': 'Partida {0} contra {1}: é a sua vez.',
  'Hall': 'Salão',
  '{0} to {1} of {2}': '{0} a {1} de {2}',
  'It could not be copied. Mark it, and copy it by hand.':
    'Não foi possível copiar. Selecione o link e copie-o à mão.',
  'Make a new link for {0}?': 'Criar um novo link para {0}?',
  'Make it': 'Criar',
  'That is your own. The link that you have holds no more; this page goes on with the new one.':
    'É o seu próprio. O link que você tem deixará de valer; esta página continua com o novo.',
  'The link that {0} has holds no more: a page that is open with it asks for the new one. Clocks run on.':
    'O link de {0} deixará de valer: uma página aberta com ele pedirá o novo. Os relógios continuam a correr.',
  'Make a link once more: it takes the place of one that was made.':
    'Crie o link mais uma vez: ele substitui o que já foi criado.',
  'The personal link of {0}, shown this once. Who opens it plays as {1}.':
    'O link pessoal de {0}, mostrado só desta vez. Quem o abre joga como {1}.',
  'Close the link of {0}?': 'Fechar o link de {0}?',
  'Close it': 'Fechar',
  '{0} can do nothing here until a new link is made. Games go on, and clocks run on.':
    '{0} não poderá fazer nada aqui até que um novo link seja criado. As partidas continuam, e os relógios também.',
  'The link of {0} is closed.': 'O link de {0} está fechado.',
  'Close it once more: that does no harm.': 'Feche-o mais uma vez: não faz mal.',
  'The connection broke before the answer came. {0}': 'A conexão caiu antes da resposta. {0}',
  '{0} of {1} are shown: find the others by name.': '{0} de {1} são mostrados: procure os outros pelo nome.',
  'No player has such a name.': 'Nenhum jogador tem esse nome.',
  'link closed from here': 'link fechado daqui',
  ' for {0}': ' para {0}',
  'New link': 'Novo link',
  'Close the link': 'Fechar o link',
  'Taken: {0}; {1} more': 'Capturadas: {0}; vantagem de {1}',
  'Taken: {0}': 'Capturadas: {0}',
  '{0} · Chess club': '{0} · Clube de xadrez',
  'The connection broke before the answer came. Looking for your game …':
    'A conexão caiu antes da resposta. Procurando a sua partida …',
  'Your game {0} against {1} {2}': 'Sua partida {0} contra {1} {2}',
  'has begun': 'começou',
  'goes on': 'continua',
  '{0}: the clocks run. ': '{0}: os relógios correm. ',
  '{0}: it is your turn. ': '{0}: é a sua vez. ',
  'Go there': 'Ir para lá',
  'The connection broke, and your game has not been opened so far. Look, and open it again.':
    'A conexão caiu, e sua partida ainda não foi aberta. Veja e abra de novo.',
  'Your game {0} against {1}, paired by {2}, has begun': 'Sua partida {0} contra {1}, emparceirada por {2}, começou',
  '{0} has joined your game {1}': '{0} entrou na sua partida {1}',
  'The connection to the lobby is lost. Clocks run on. Trying again':
    'A conexão com o lobby caiu. Os relógios continuam a correr. Nova tentativa',
  'The lobby does not answer. Trying again': 'O lobby não responde. Nova tentativa',
  'in {0} s.': 'em {0} s.',
  'now.': 'agora.',
  '{0} Trying again': '{0} Nova tentativa',
  'Choose a player': 'Escolha um jogador',
  'Choose two players: nobody plays against himself.': 'Escolha dois jogadores: ninguém joga contra si mesmo.',
  'This FEN is too long.': 'Este FEN é longo demais.',
  'The connection broke before the answer to the pairing came.':
    'A conexão caiu antes da resposta ao emparceiramento.',
  'They were not paired. {0}': 'Não foram emparceirados. {0}',
  'Game {0} is open: {1} has White.': 'A partida {0} está aberta: {1} tem as Brancas.',
  'The connection broke before the answer to the joining came.':
    'A conexão caiu antes da resposta à entrada do segundo jogador.',
  '{0} was not joined. {1}': '{0} não entrou na partida. {1}',
  '{0} has Black: the clocks run.': '{0} tem as Pretas: os relógios correm.',
  'Game {0} is off the table.': 'A partida {0} saiu da lista.',
  'Game {0} was not taken off. {1}': 'A partida {0} não foi retirada. {1}',
  'Game {0} is left as it stands.': 'A partida {0} fica como está.',
  'This pairing is left.': 'Este emparceiramento fica como está.',
  '{0} against {1}: begun, and not ended here.': '{0} contra {1}: começado e não terminado aqui.',
  '{0} Once the connection is there again, the table is looked at.':
    '{0} Assim que a conexão voltar, a lista será verificada.',
  'Game {0} was taken off the table.': 'A partida {0} foi retirada da lista.',
  '{0} has joined {1} in game {2}. It stays as it is; pair {3} anew.':
    '{0} entrou contra {1} na partida {2}. Fica assim; emparceire {3} de novo.',
  'Game {0} stands open: {1} has White, and {2} has not joined.':
    'A partida {0} está aberta: {1} tem as Brancas, e {2} não entrou.',
  'It may be any of these games: {0}. Look at them, and leave this pairing.':
    'Pode ser qualquer uma destas partidas: {0}. Veja-as e deixe este emparceiramento.',
  'No game has been opened so far.': 'Até agora nenhuma partida foi aberta.',
  'Join {0} again': 'Incluir {0} de novo',
  'Open it again': 'Abrir de novo',
  'Take game {0} off': 'Retirar a partida {0}',
  '{0} plays already, in game {1}.': '{0} já joga, na partida {1}.',
  '{0} is not connected.': '{0} está sem conexão.',
  'Enter it': 'Registrar',
  'The last moves': 'Os últimos lances',
  'Game {0} is not on the table.': 'A partida {0} não está na lista.',
  'As the system': 'Sistema',
  'Light': 'Claro',
  'Dark': 'Escuro',
  'Wood': 'Madeira',
  'Green': 'Verde',
  'Blue': 'Azul',
  'Club': 'Clube',
  'Bold': 'Forte',
  'Plain': 'Simples',
  'Sounds are on': 'O som está ligado',
  'Sounds are off': 'O som está desligado',
  'waiting …': 'à espera …',
  '{0}’s clock': 'Relógio das {0}',
  ', Black': ', Pretas',
  'Draw offered': 'Empate proposto',
  'Offer draw': 'Empate',
  'Play {0}?': 'Jogar {0}?',
  'Waiting for an opponent': 'À espera de um adversário',
  'This seat is free': 'Este lugar está livre',
  'The clocks start as soon as somebody joins.': 'Os relógios começam assim que alguém entrar.',
  'The clocks start as soon as you join.': 'Os relógios começam assim que você entrar.',
  'To play, open your personal link.': 'Para jogar, abra o seu link pessoal.',
  'Calling it …': 'Reclamando …',
  'A player has to call it.': 'Um jogador tem de reclamar.',
  'An earlier position': 'Uma posição anterior',
  'The game goes on: go to the last move to play.': 'A partida continua: vá ao último lance para jogar.',
  'Sending …': 'Enviando …',
  'The lobby has not answered yet.': 'O lobby ainda não respondeu.',
  'Your turn': 'Sua vez',
  'Waiting for your opponent': 'Vez do adversário',
  'Check!': 'Xeque!',
  'Then {0}–{1}: a click takes it back.': 'Depois {0}–{1}: um clique cancela.',
  'Once the clocks run {0}–{1}: a click takes it back.': 'Assim que os relógios andarem {0}–{1}: um clique cancela.',
  'free seat': 'lugar livre',
  'From a position': 'A partir de uma posição',
  '+{0}{1} in 1 move': '+{0}{1} em 1 lance',
  '+{0}{1} in {2} moves': '+{0}{1} em {2} lances',
  'second period': 'segundo período',
  'It is your turn.': 'É a sua vez.',
  'Games': 'Partidas',
  'Your turn in 1 game': 'Sua vez em 1 partida',
  'Your turn in {0} games': 'Sua vez em {0} partidas',
  'Show all {0}': 'Mostrar todas ({0})',
  'white: ': 'brancas: ',
  'black: ': 'pretas: ',
  'free': 'livre',
  'Game ': 'Partida ',
  'from a position': 'a partir de uma posição',
  'Join game {0}': 'Entrar na partida {0}',
  'Join': 'Entrar',
  'your turn': 'sua vez',
  'watch': 'assistir',
  'their turn': 'do adversário',
  'Nobody waits for an opponent.': 'Ninguém espera um adversário.',
  'No game is being played.': 'Nenhuma partida em andamento.',
  'Chess club': 'Clube de xadrez',
  '{0}’s flag has fallen, and nobody has called it': 'A seta das {0} caiu, e ninguém reclamou',
  'White and Black offer a draw': 'Brancas e Pretas propõem empate',
  '{0} of {1} are shown.': '{0} de {1} são mostradas.',
  'Arbiter': 'Árbitro',
  'Arbiter: 1 waits': 'Árbitro: 1 à espera',
  'Arbiter: {0} wait': 'Árbitro: {0} à espera',
  'Game {0}: {1}.': 'Partida {0}: {1}.',
  '{0} more things wait for an arbiter.': 'Mais {0} assuntos esperam um árbitro.',
  'Show it': 'Mostrar',
  ['Your personal link does not hold at the moment: an arbiter has made another one or closed it, or the list of '
    + 'players is being changed. You are watching. This page keeps the link, and tries it again. To play on with a '
    + 'new one, open it, or ask your arbiter for it.']:
    'Seu link pessoal não vale no momento: um árbitro criou outro ou o fechou, ou a lista de jogadores está sendo '
    + 'alterada. Você está assistindo. Esta página guarda o link e continua a tentar. Para jogar com um novo, '
    + 'abra-o, ou peça-o ao seu árbitro.',
  'This link is cut short: {0} of its 32 last letters and digits have come. Copy the whole link, and open it again.':
    'Este link está cortado: das suas últimas 32 letras e algarismos {0:chegou|chegaram} {0}. Copie o link inteiro e '
    + 'abra-o de novo.',
  'That is no personal link. Copy the whole link, and open it again.':
    'Isso não é um link pessoal. Copie o link inteiro e abra-o de novo.',
  'You are {0} here. Play as {1} instead?': 'Aqui você é {0}. Jogar como {1}?',
  'Play as {0}': 'Jogar como {0}',
  'Stay {0}': 'Ficar como {0}',
  'Not signed in': 'Não identificado',
  'Watching': 'Espectador',
  'arbiter': 'árbitro',
  'player': 'jogador',
  'The lobby could not read that line.': 'O lobby não conseguiu ler essa linha.',
  'You have not signed in.': 'Você não se identificou.',
  'There is no game of this number.': 'Não há partida com esse número.',
  'You do not play in this game.': 'Você não joga nesta partida.',
  'The game has not begun: a seat is empty.': 'A partida não começou: um lugar está livre.',
  'The game is over.': 'A partida terminou.',
  'Another move was made meanwhile. Look at the position again.':
    'Nesse meio-tempo foi feito outro lance. Veja a posição de novo.',
  'It is not your turn.': 'Não é a sua vez.',
  'That is no legal move in this position.': 'Esse lance não é legal nesta posição.',
  'An offer of a draw stands already.': 'Já há uma proposta de empate de pé.',
  'No offer of your opponent stands.': 'Não há proposta do seu adversário de pé.',
  'You have claimed in this turn already.': 'Você já reclamou nesta vez.',
  'The flag has not fallen.': 'A seta não caiu.',
  'Both seats of this game are taken.': 'Os dois lugares desta partida estão ocupados.',
  'You cannot play against yourself.': 'Você não pode jogar contra si mesmo.',
  'That is no FEN of a valid position.': 'Esse não é o FEN de uma posição válida.',
  ['These times are out of range: 1 second to 24 hours a period, 0 to 60 seconds a move, 1 to 255 moves before the '
    + 'second period.']:
    'Este tempo está fora dos limites: de 1 segundo a 24 horas por período, de 0 a 60 segundos por lance, de 1 a 255 '
    + 'lances antes do segundo período.',
  'The server has no room for another game.': 'O servidor não tem lugar para mais uma partida.',
  'This game has as many moves as the server keeps for one.':
    'Esta partida tem tantos lances quantos o servidor guarda para uma.',
  'The game goes on, so it stays on the table.': 'A partida continua, por isso fica na lista.',
  'The server was short of memory. Nothing has changed; try again.':
    'Faltou memória ao servidor. Nada mudou; tente de novo.',
  'The server’s clock is out of range. Tell your arbiter.': 'O relógio do servidor está errado. Avise o seu árbitro.',
  'From that position the game would be over at once.': 'A partir dessa posição a partida terminaria na hora.',
  'You are watching. To play, open your personal link.': 'Você está assistindo. Para jogar, abra o seu link pessoal.',
  'This personal link is not known here, at least not now. Ask your arbiter for a new one.':
    'Este link pessoal não é conhecido aqui, pelo menos agora. Peça um novo ao seu árbitro.',
  'Only an arbiter may do that, and nobody while the disk has no room for the lobby’s log.':
    'Só um árbitro pode fazer isso, e ninguém enquanto não houver espaço no disco para o registro do lobby.',
  'That was too much within a second. Nothing was sent; try again.':
    'Foi demais em um segundo. Nada foi enviado; tente de novo.',
  ['As many of your games as may wait for an opponent already. Wait until one is joined, or ask an arbiter to take '
    + 'one off.']:
    'Você já tem à espera de adversário todas as partidas permitidas. Aguarde até que alguém entre em uma, ou peça a '
    + 'um árbitro que retire uma.',
  'The lobby has no connection to the game server at the moment. Nothing was done; try again soon.':
    'O lobby está sem conexão com o servidor de jogo no momento. Nada foi feito; tente de novo em breve.',
  'This page watches sixteen games already.': 'Esta página já acompanha dezesseis partidas.',
  'No player of this name is known here.': 'Nenhum jogador com esse nome é conhecido aqui.',
  ['New games are stopped for the moment, by an arbiter or for want of room on the disk. Games that were begun go '
    + 'on.']:
    'As novas partidas estão suspensas por enquanto, por um árbitro ou por falta de espaço no disco. As já '
    + 'começadas continuam.',
  ['The lobby could not change the file of the players, or another writes it at the moment. Try again; if that does '
    + 'not help, tell who runs the lobby.']:
    'O lobby não conseguiu alterar o arquivo de jogadores, ou outra pessoa o está escrevendo agora. Tente de novo; '
    + 'se não adiantar, avise quem cuida do lobby.',
  ['This game does not wait for a second player, so it is not taken off from here. One that is over goes by itself '
    + 'once it is kept.']:
    'Esta partida não espera um segundo jogador, por isso não é retirada daqui. Uma partida terminada sai sozinha '
    + 'assim que é arquivada.',
  'This game waits for nobody, or for another player. Look at the table again.':
    'Esta partida não espera ninguém, ou espera outro jogador. Veja a lista de novo.',
  'The table is nearly full, and its last places are for arbiters. Wait until a game is taken off, or ask one.':
    'A lista está quase cheia, e os últimos lugares são dos árbitros. Aguarde até que uma partida seja retirada, ou '
    + 'peça a um árbitro.',
  ['Too many of your games that are over are still on the table. They go once they are kept; try again then, or ask '
    + 'an arbiter.']:
    'Muitas partidas suas já terminadas ainda estão na lista. Elas saem assim que são arquivadas; tente então de '
    + 'novo, ou fale com um árbitro.',
  'You play in as many games as a player may. End one first, or ask an arbiter.':
    'Você joga todas as partidas permitidas. Termine uma antes, ou fale com um árbitro.',
  'This player does not play in this game.': 'Esse jogador não joga nesta partida.',
  'It is not this player’s turn.': 'Não é a vez desse jogador.',
  'No offer of a draw stands: it was declined, or a move was made.':
    'Não há proposta de empate de pé: foi recusada, ou um lance foi feito.',
  ['As many games of this player as may wait for an opponent already: one of them has to be joined or taken off '
    + 'first.']:
    'Esse jogador já tem à espera de adversário todas as partidas permitidas: antes alguém tem de entrar em uma, ou '
    + 'uma tem de ser retirada.',
  'The server refused it: {0} (number {1}).': 'O servidor recusou: {0} (número {1}).',
  'A FEN has letters, digits and the signs / and - alone.': 'Um FEN só tem letras, algarismos e os sinais / e -.',
  'White wins': 'Brancas vencem',
  'Black wins': 'Pretas vencem',
  'by checkmate': 'por xeque-mate',
  'by resignation': 'por abandono',
  'by stalemate': 'por afogamento',
  'since neither side can give mate': 'porque nenhum lado pode dar mate',
  'by agreement': 'por comum acordo',
  'by the arbiter’s decision': 'por decisão do árbitro',
  'on time': 'por tempo',
  'by claim: the position stood for the third time': 'por reclamação: a posição ocorreu pela terceira vez',
  'by claim: fifty moves without a capture or a pawn’s move':
    'por reclamação: cinquenta lances sem captura nem movimento de peão',
  'since the position stood for the fifth time': 'porque a posição ocorreu pela quinta vez',
  'since 75 moves were made without a capture or a pawn’s move':
    'porque foram feitos 75 lances sem captura nem movimento de peão',
  'since a flag fell, and the opponent has the king alone': 'porque uma seta caiu e o adversário só tem o rei',
  'Article {0} of the FIDE Laws': 'Artigo {0} das Leis da FIDE',
  'the opening of this game': 'a abertura desta partida',
  'the joining of this game': 'a entrada nesta partida',
  'a move': 'um lance',
  'an offer of a draw': 'uma proposta de empate',
  'the agreement to a draw': 'o aceite do empate',
  'the refusal of a draw': 'a recusa do empate',
  'the resignation': 'o abandono',
  'a claim of a draw': 'uma reclamação de empate',
  'the call of the flag': 'a reclamação de tempo',
  'an act': 'um ato',
  '{0}’s flag had fallen': 'A seta das {0} tinha caído',
  '{0}: called by {1} for {2}': '{0}: reclamação de {1} por {2}',
  '{0}: called by {1}': '{0}: reclamação de {1}',
  '{0} before {1}, which {2} entered for {3}': '{0} antes de: {1} ({3}), registro de {2}',
  '{0} before {1} by {2}': '{0} antes de: {1} ({2})',
  '{0} by {1}, entered by {2}': '{0} de {1}, registro de {2}',
  '{0} by {1}': '{0} de {1}',
  'pawn': 'peão',
  'knight': 'cavalo',
  'bishop': 'bispo',
  'rook': 'torre',
  'queen': 'dama',
  'king': 'rei',
  '{0} pawns': '{0} peões',
  '{0} knights': '{0} cavalos',
  '{0} bishops': '{0} bispos',
  '{0} rooks': '{0} torres',
  '{0} queens': '{0} damas',
  '{0} kings': '{0} reis',
  'KQRBN': 'RDTBC',
  'white pawn': 'peão branco',
  'white knight': 'cavalo branco',
  'white bishop': 'bispo branco',
  'white rook': 'torre branca',
  'white queen': 'dama branca',
  'white king': 'rei branco',
  'black pawn': 'peão preto',
  'black knight': 'cavalo preto',
  'black bishop': 'bispo preto',
  'black rook': 'torre preta',
  'black queen': 'dama preta',
  'black king': 'rei preto',
  ', checkmate': ', xeque-mate',
  ', check': ', xeque',
  'castles kingside': 'roque pequeno',
  'castles queenside': 'roque grande',
  'takes': 'captura',
  'becomes a {0}': 'promove a {0}',
  'White': 'Brancas',
  'Black': 'Pretas',
  '1 hour': '1 hora',
  '{0} hours': '{0} horas',
  '1 minute': '1 minuto',
  '{0} minutes': '{0} minutos',
  '1 second': '1 segundo',
  '{0} seconds': '{0} segundos',
  ', 1 second more a move': ', mais 1 segundo por lance',
  ', {0} seconds more a move': ', mais {0} segundos por lance',
  '{0} a side{1}': '{0} por jogador{1}',
  '{0} for {1} moves, then {2}{3}': '{0} para {1} lances, depois {2}{3}',
  'no time': 'sem tempo',
  'Running games': 'Partidas em andamento',
  'This page wants JavaScript.': 'Esta página precisa de JavaScript.',
  'The games before': 'As partidas anteriores',
  'The next games': 'As próximas partidas',
  'eight boards': 'oito tabuleiros',
  'every 20 seconds': 'a cada 20 segundos',
  'Full screen': 'Tela cheia',
  'The lobby does not answer. It is asked again by itself; the clocks run on.':
    'O lobby não responde. A tentativa se repete sozinha; os relógios continuam a correr.',
  'Until the club’s broadcast runs (“chess-club live”), games are shown only to who has a personal link.':
    'Enquanto a transmissão do clube (“chess-club live”) não estiver no ar, só vê as partidas quem '
    + 'tem um link pessoal.',
  'Game {0} is not being played. It is shown here as soon as it begins.':
    'A partida {0} não está em andamento. Ela aparece aqui assim que começar.',
  'To the games': 'Às partidas',
  'Copy link': 'Copiar link',
  'There is no game here.': 'Não há partida aqui.',
  'Copy PGN': 'Copiar PGN',
  'Finished': 'Terminadas',
  'to the board': 'para o tabuleiro',
  'Rematch': 'Revanche',
  'To the board or the games': 'Ao tabuleiro ou às partidas',
  'FEN, empty for the usual start': 'FEN, vazio para a posição inicial',
  'Minutes': 'Minutos',
  'Keys that are letters': 'Letras como teclas',
  'What you can do': 'O que você pode fazer',
  'You are watching. To play, open the personal link that you were given, or paste it here.':
    'Você está assistindo. Para jogar, abra o link pessoal que recebeu, ou cole-o aqui.',
  'Try now': 'Tentar agora',
  'Projector': 'Projetor',
  'half moves of 100': 'meios-lances de 100',
  'A move back (←)': 'Um lance atrás (←)',
  'Copy the link': 'Copiar o link',
  'Adjourned games': 'Partidas adiadas',
  'Seconds a move': 'Segundos por lance',
  'What waits': 'À espera',
  'Black:': 'Pretas:',
  'The arbiter’s desk': 'A mesa do árbitro',
  'Open and join the game': 'Abrir e iniciar a partida',
  'All boards': 'Todos os tabuleiros',
  'Your colour': 'Sua cor',
  'Turn the board': 'Virar o tabuleiro',
  'To the last move': 'Ao último lance',
  'Your move': 'Seu lance',
  'Your opponent wins. It cannot be taken back.': 'Seu adversário vence. Não pode ser desfeito.',
  'This desk is an arbiter’s. Sign in by an arbiter’s personal link.':
    'Esta mesa é dos árbitros. Entre com o link pessoal de um árbitro.',
  'To the start (Home)': 'Ao início (Home)',
  'Players and links': 'Jogadores e links',
  'A move on': 'Um lance adiante',
  'Leave it so': 'Deixar assim',
  'The game server does not answer. The lobby tries again by itself; every game is kept, and the clocks run on.':
    'O servidor de jogo não responde. O lobby tenta de novo sozinho; toda partida está guardada, e os relógios '
    + 'continuam a correr.',
  'Help and keys': 'Ajuda e teclas',
  'About this game': 'Sobre esta partida',
  'Go through the game': 'Percorrer a partida',
  'FEN of the board shown': 'FEN da posição mostrada',
  'Your opponent offers a draw.': 'Seu adversário propõe empate.',
  'Resign this game?': 'Abandonar esta partida?',
  'After moves': 'Após (lances)',
  'Play on': 'Continuar',
  'With the move that you are about to make': 'Com o lance que você vai fazer',
  'say the clocks': 'dizer os relógios',
  'A link of another player was opened. One tab plays for one player.':
    'O link de outro jogador foi aberto. Uma aba joga por um só jogador.',
  'Minutes more': 'Minutos a mais',
  'For the hall’s screen (h)': 'Para a tela do salão (h)',
  'Personal link': 'Link pessoal',
  'Sounds': 'Sons',
  'Either': 'Tanto faz',
  'Moves': 'Lances',
  'fifty moves of each side without a capture or a pawn’s move (9.3): the board counts':
    'cinquenta lances de cada lado sem captura nem movimento de peão (9.3): o tabuleiro conta',
  'Ask before a move on the board is sent': 'Perguntar antes de enviar um lance do tabuleiro',
  'You are:': 'Você é:',
  'Find a player of the club': 'Procurar um jogador do clube',
  'A new game of the same times, with the colours changed': 'Nova partida com o mesmo tempo e as cores trocadas',
  'Take this game off the table?': 'Retirar esta partida da lista?',
  'Decline': 'Recusar',
  ['While your opponent thinks, the same gives your next move: it is played at once if it can be, and a click on the '
    + 'board takes it back. A king that is put on its rook castles. The right button draws circles and arrows for '
    + 'you alone, with Shift in another colour. Sounds, boards, men and more are chosen at the head of the page.']:
    'Enquanto seu adversário pensa, do mesmo modo você indica seu próximo lance: ele é jogado na hora, se for '
    + 'possível, e um clique no tabuleiro o cancela. Um rei posto sobre a sua torre faz o roque. O botão direito '
    + 'desenha círculos e setas só para você, com Shift em outra cor. Sons, tabuleiros, peças e mais são escolhidos '
    + 'no alto da página.',
  'The new link': 'O novo link',
  ['A claim that is right ends the game. A wrong one gives your opponent two minutes, stands as an offer of a draw, '
    + 'and its move is made. You may claim once in a turn.']:
    'Uma reclamação correta termina a partida. Uma incorreta dá dois minutos ao seu adversário, vale como proposta '
    + 'de empate, e o lance dela é feito. Você pode reclamar uma vez a cada lance.',
  'Colours': 'Cores',
  'Find a player': 'Procurar jogador',
  'Men': 'Peças',
  'Keep me signed in here': 'Continuar conectado aqui',
  ['The page asks nothing of any other host. Your personal link is kept in this tab, or in this browser where you '
    + 'say so; it is never part of an address that is sent.']:
    'A página não pede nada a nenhum outro servidor. Seu link pessoal fica nesta aba, ou neste navegador, se você '
    + 'disser; ele nunca faz parte de um endereço enviado.',
  'Resign': 'Abandonar',
  'Open the game': 'Abrir a partida',
  'Because': 'Motivo',
  'turn the board': 'virar o tabuleiro',
  'Shall this browser tell you when it is your turn and you look elsewhere?':
    'Este navegador deve avisar quando for a sua vez e você estiver olhando outra coisa?',
  'e4, Nf3, e2e4': 'e4, Cf3, e2e4',
  'Nf3': 'Cf3',
  'The pairing that was begun': 'O emparceiramento começado',
  'A move back': 'Um lance atrás',
  'say the position': 'dizer a posição',
  'Copy and save': 'Copiar e salvar',
  'Pages': 'Páginas',
  'Offer of a draw': 'Proposta de empate',
  'White:': 'Brancas:',
  'a draw': 'empate',
  'Minutes and seconds a move': 'Minutos, e segundos por lance',
  'Leave it': 'Deixar',
  'A move on (→)': 'Um lance adiante (→)',
  'Pair by hand': 'Emparceirar à mão',
  'Save FEN': 'Salvar FEN',
  'Sign in': 'Entrar',
  'to the field for a move': 'ao campo do lance',
  'This tab alone': 'Só esta aba',
  'the hall’s view, for a projector, and back': 'a vista para o salão, com projetor, e de volta',
  'Yes': 'Sim',
  'Your link has signed you in, in this tab. Shall this browser keep it?':
    'Seu link identificou você nesta aba. Este navegador deve guardá-lo?',
  'You are watching.': 'Você está assistindo.',
  'What was done': 'O que foi feito',
  'Move': 'Lance',
  'This browser alone knows these notes.': 'Só este navegador conhece estas notas.',
  'Copy FEN': 'Copiar FEN',
  'No': 'Não',
  'Join this game': 'Entrar nesta partida',
  'Forget the link that is kept here': 'Esquecer o link guardado aqui',
  'the start, the last move': 'o início, o último lance',
  'Open a game': 'Abrir uma partida',
  'To the start': 'Ao início',
  'Settings': 'Configurações',
  'A second period': 'Um segundo período',
  'Play': 'Jogar',
  'Take off the table': 'Retirar da lista',
  'the same position stands for the third time (9.2)': 'a mesma posição pela terceira vez (9.2)',
  'In your turn: a position for the third time, or fifty moves each without a capture or a pawn’s move':
    'Na sua vez: uma posição pela terceira vez, ou cinquenta lances de cada lado sem captura nem movimento de peão',
  'Keep it': 'Guardar',
  'Claim a draw': 'Reclamar empate',
  'Copy the game’s link': 'Copiar o link da partida',
  'Claim': 'Reclamar',
  'Done: show it no more': 'Pronto: não mostrar mais',
  'Empty the form': 'Limpar o formulário',
  'To the last move (End)': 'Ao último lance (End)',
  ['Click a man and then a square, or drag it. The squares that it may reach are marked. On the board, the arrow '
    + 'keys go over the squares, Enter takes a man and puts it down, Escape puts it back. Or type the move:']:
    'Clique em uma peça e depois em uma casa, ou arraste-a. As casas que ela pode alcançar ficam marcadas. No '
    + 'tabuleiro, as setas do teclado percorrem as casas, Enter pega uma peça e a solta, Esc a devolve. Ou digite o '
    + 'lance:',
  ['The game is opened for White and joined for Black, in your name as arbiter. From then on the clock of who is to '
    + 'move runs.']:
    'A partida é aberta para as Brancas, e as Pretas entram, em seu nome como árbitro. A partir daí corre o relógio '
    + 'de quem deve jogar.',
  'a move back, a move on (on the board and in the list of moves the arrows walk)':
    'um lance atrás, um lance adiante (no tabuleiro e na lista de lances as setas andam)',
  'Close': 'Fechar',
  'Turn the board (f)': 'Virar o tabuleiro (f)',
  'Play it': 'Jogar',
  'Accept': 'Aceitar',
  'Language': 'Idioma',
  'Take it back': 'Cancelar',
  'Running': 'Em andamento',
  'Else this tab alone knows your link, until it is closed. Don’t keep it on a computer that others use.':
    'Senão, só esta aba conhece o seu link, até ser fechada. Não o guarde em um computador que outros usam.',
  'Adjourn it': 'Adiar',
  'Sign out': 'Sair',
  'You are watching. To play, open the personal link that you were given.':
    'Você está assistindo. Para jogar, abra o link pessoal que recebeu.',
  'Your games': 'Suas partidas',
  'You play in this game: look at it again once it is over.': 'Você joga nesta partida: reveja-a quando terminar.',
  'That is neither a FEN nor a PGN.': 'Isso não é FEN nem PGN.',
  'This browser keeps nothing: copy the PGN.': 'Este navegador não guarda nada: copie a PGN.',
  'the start': 'o início',
  'Look at a game again': 'Rever uma partida',
  'Stop new games?': 'Parar as novas partidas?',
  'Stop them': 'Parar',
  ['Players open no game then: who tries is told so. Games that wait, {0} now, are taken off the table, so that '
    + 'nobody joins them, and who waits in one is told so. Games that go on are left alone, and arbiters pair on.']:
    'Os jogadores já não abrem partidas: quem tentar fica sabendo. As partidas em espera, agora {0}, saem da '
    + 'lista para que ninguém entre nelas, e quem espera em uma fica sabendo. As partidas em andamento não são '
    + 'tocadas, e os árbitros continuam a emparceirar.',
  'Games that waited, now off the table: {0}.': 'Partidas em espera retiradas da lista: {0}.',
  'Not all games that wait were taken off. Look, and do it again.':
    'Nem todas as partidas em espera saíram da lista. Veja e faça de novo.',
  'New games: stopped': 'Novas partidas: paradas',
  'New games: allowed': 'Novas partidas: permitidas',
  'Make new links for {0} players, to print?': 'Criar novos links para {0} {0:jogador|jogadores}, para imprimir?',
  'Make them': 'Criar',
  ['They are for the players who are listed here, arbiters left out. The links that they have hold no more: a '
    + 'page that is open with one asks for the new one. Clocks run on.']:
    'São para os jogadores desta lista, sem os árbitros. Os links que eles têm deixam de valer: uma página '
    + 'aberta com um deles pede o novo. Os relógios continuam.',
  '{0} of {1} links are made.': '{0} de {1} links criados.',
  'The sheet has {0} of {1} links. It is there this once: print it now.':
    'A folha tem {0} de {1} links. Ela aparece só desta vez: imprima agora.',
  'Who opens this link plays as {0}: keep it for yourself.': 'Quem abre este link joga como {0}: guarde-o para você.',
  'Adjourned': 'Adiada',
  'Adjourned: {0}': 'Adiada: {0}',
  'The arbiter announces: {0}': 'O árbitro anuncia: {0}',
  'Announcement': 'Anúncio',
  'Announce it': 'Anunciar',
  'Take it away': 'Retirar',
  'Hide': 'Ocultar',
  'By the arbiter, {0}: it goes on later as another game. In the record this one is a draw.':
    'Pelo árbitro, {0}: continua mais tarde como outra partida. No registro, esta é empate.',
  'It is taken back at {0}, when you close this page, or when another game of yours begins.':
    'É retirada às {0}, quando você fecha esta página ou quando outra partida sua começa.',
  'Your other game that waited is taken back, since one has begun.':
    'Sua outra partida em espera foi retirada, pois uma começou.',
  'Nobody has joined your game in ten minutes: it is taken back.':
    'Ninguém entrou na sua partida em dez minutos: ela foi retirada.',
  'Look at it again': 'Rever',
  'Put it on the board': 'Pôr no tabuleiro',
  'Make it the main line': 'Tornar linha principal',
  'To the game': 'À partida',
  ['This browser keeps the note. Then the game is closed as a draw: an offer is entered for Black and its '
    + 'acceptance for White, in your name as arbiter. The clocks run until then, and are noted as they stand at '
    + 'the end.']:
    'Este navegador guarda a nota. Depois a partida é encerrada com empate: registra-se uma proposta pelas '
    + 'Pretas e o aceite pelas Brancas, em seu nome como árbitro. Até lá os relógios correm, e são anotados como '
    + 'estiverem no fim.',
  'Delete from here': 'Apagar daqui em diante',
  'Put another game here': 'Pôr outra partida',
  'Start anew': 'Recomeçar',
  ['Both players are told that it is adjourned. In the record this game stays a draw, and standings count it so '
    + 'until the game that goes on with it is the board’s.']:
    'Os dois jogadores ficam sabendo que ela foi adiada. No registro esta partida fica empatada, e a '
    + 'classificação a conta assim até que valha para o tabuleiro a partida que a retoma.',
  'The sheet of links': 'A folha de links',
  'Print': 'Imprimir',
  'FEN or PGN': 'FEN ou PGN',
  'New links to print': 'Novos links para imprimir',
  'You offer {0} a game, {1}: you are {2}.': 'Ofereces uma partida a {0}, {1}: tens as {2}.',
  '{0} offers you a game, {1}: you are {2}.': '{0} oferece-te uma partida, {1}: tens as {2}.',
  'Anybody': 'Qualquer um',
  'Your opponent': 'O teu adversário',
  'No games are kept here.': 'Aqui não são guardadas partidas.',
  'The games that were kept cannot be read now.': 'As partidas guardadas não podem ser lidas agora.',
  'Reading …': 'Lendo …',
  'Games of {0}': 'Partidas de {0}',
  'Finished games': 'Partidas terminadas',
  'Games found: {0}': 'Partidas encontradas: {0}',
  'Show {0} more': 'Mostrar mais {0}',
  'All games and the score of: ': 'Todas as partidas e os pontos de: ',
  '{0}. Not counted, since not both had moved: {1}': '{0}. Não contadas, porque os dois não tinham jogado: {1}',
  'Score: {0} of {1} ({2} won, {3} drawn, {4} lost)': 'Pontos: {0} de {1} ({2} ganhas, {3} empatadas, {4} perdidas)',
  'Game {0}: {1} – {2}': 'Partida {0}: {1} – {2}',
  'The newest draws by agreement, as an adjourned game is in the record, to be looked up:':
    'Os empates mais recentes por acordo, como uma partida adiada consta no registro, para procurar:',
  'Looking among the games that were kept …': 'Procurando entre as partidas guardadas …',
  'No finished games yet.': 'Ainda não há partidas terminadas.',
  'Day': 'Dia',
  'Save these as PGN': 'Guardar estas em PGN',
  'Player': 'Jogador',
  'any': 'qualquer',
  'Result': 'Resultado',
  'All finished games': 'Todas as partidas terminadas',
  'Your own': 'As suas',
  'Game {0} has not ended as a draw by agreement.': 'A partida {0} não terminou em empate por acordo.',
  'Looked up {0}. Game {1} stands in the record as a draw.': 'Consultada em {0}. A partida {1} consta como empate.',
  'Open the games of this round: {0}?': 'Abrir as partidas desta rodada: {0}?',
  'Open these games': 'Abrir estas partidas',
  'Each is opened for White and joined for Black. From then on the clocks run.':
    'Cada uma é aberta para as brancas e as pretas entram. A partir daí os relógios correm.',
  'A game of the two is on the table already.': 'Já há uma partida dos dois na lista.',
  'The connection broke before the answer came. Open the others once it is there again: no board gets a second game.':
    'A conexão caiu antes da resposta. Abra as outras assim que ela voltar: nenhum tabuleiro recebe uma '
    + 'segunda partida.',
  'Board {0}': 'Tabuleiro {0}',
  'from {0} on': 'a partir de {0}',
  'The first line has to be {0}': 'A primeira linha tem de ser {0}',
  'it has not five fields': 'ela não tem cinco campos',
  'the board is no number': 'o tabuleiro não é um número',
  'no player has the name {0}': 'nenhum jogador tem o nome {0}',
  '{0} stands twice': '{0} aparece duas vezes',
  'the times are not as 300+2 is': 'os tempos não são como 300+2',
  'the times are in seconds, and less than a minute: 15 minutes are 900':
    'os tempos são em segundos e de menos de um minuto: 15 minutos são 900',
  'the start is not as 2026-11-26T19:30Z is': 'o início não é como 2026-11-26T19:30Z',
  'Row {0}: {1}.': 'Linha {0}: {1}.',
  'There is no board in it.': 'Não há nenhum tabuleiro.',
  'Boards': 'Tabuleiros',
  'Read the pairings': 'Ler os emparceiramentos',
  'A game that was adjourned in another browser: its number': 'Uma partida adiada em outro navegador: o número dela',
  'Or from a file': 'Ou de um arquivo',
  'Pairings as CSV, a line a board': 'Emparceiramentos em CSV, uma linha por tabuleiro',
  'Open a round': 'Abrir uma rodada',
  'Look it up': 'Procurar',
  '{0} has not accepted your game.': '{0} não aceitou a sua partida.',
  'Another game of yours goes on: press “Accept” again to play both at once.':
    'Outra partida sua está em curso: prima «Aceitar» outra vez para jogar as duas ao mesmo tempo.',
  'It is offered.': 'Está oferecida.',
  'The round': 'A ronda',
  'There is no round here.': 'Não há nenhuma ronda aqui.',
  'The round cannot be read now.': 'A ronda não pode ser lida agora.',
  'Round {0}': 'Ronda {0}',
  'Round': 'Ronda',
  'Rounds': 'Rondas',
  'Round {0}, board {1}': 'Ronda {0}, tabuleiro {1}',
  'Pairings': 'Emparceiramentos',
  'Standings': 'Classificação',
  'Crosstable': 'Quadro cruzado',
  'Place': 'Lugar',
  'Points': 'Pontos',
  'No.': 'N.º',
  'bye': 'isento',
  'not begun': 'não começada',
  'Direct encounter': 'Confronto direto',
  'Board points': 'Pontos de tabuleiro',
  'Team': 'Equipe',
  'Matches': 'Encontros',
  'Match': 'Encontro',
  'Standings of the teams': 'Classificação das equipes',
  'Crosstable of the teams': 'Quadro cruzado das equipes',
  'Match points': 'Pontos de encontro',
  'not over': 'não terminado',
  'Buchholz without the least': 'Buchholz sem o menor',
  'Buchholz': 'Buchholz',
  'Sonneborn-Berger': 'Sonneborn-Berger',
  'Wins': 'Vitórias',
  'w': 'b',
  'b': 'p',
  'Clocks stopped by the arbiter: {0}': 'Relógios parados pelo árbitro: {0}',
  'Stop the clocks': 'Parar os relógios',
  'Start the clocks': 'Pôr os relógios a andar',
  'The arbiter has stopped all clocks. Nothing is played until they run again.':
    'O árbitro parou todos os relógios. Nada se joga até voltarem a andar.',
  'This lobby can stop no clocks: whoever runs it has not named the server’s file.':
    'Este lobby não pode parar relógios: quem o gere não indicou o ficheiro do servidor.',
  'Reason': 'Motivo',
  'The short name': 'O nome curto',
  'Add the player': 'Acrescentar o jogador',
  '{0} is the name of another player already: choose one that nobody has.':
    '{0} já é o nome de outro jogador: escolha um que ninguém tenha.',
  'Look whether the player is listed, and else add the player once more.':
    'Veja se o jogador está na lista; se não estiver, acrescente-o outra vez.',
  'That is no short name: it has 1 to 16 of the letters A to Z and a to z, the digits, and _.':
    'Isso não é um nome curto: tem de 1 a 16 das letras A a Z e a a z, dos algarismos e de _.',
  'Another player has this name.': 'Outro jogador tem este nome.',
  'That is no full name: it has at most 100 letters, and single spaces between words.':
    'Isso não é um nome completo: tem no máximo 100 letras e espaços simples entre as palavras.',
  'A player who is new: the full name': 'Quem é novo: o nome completo',
  'Copy the command': 'Copiar o comando',
  'The command is copied.': 'O comando foi copiado.',
  'A player of this full name is listed already.': 'Já há alguém com este nome completo na lista.',
  'Not all letters of the name can be sent: run this on the club’s machine, with the evening’s folder for FOLDER.':
    'Este nome tem letras que não podem ser enviadas daqui. Execute isto na máquina do clube, com a pasta da noite no '
    + 'lugar de FOLDER.',
  '{0} Or write the name as {1}: the player is added at once then.':
    '{0} Ou escreva o nome como {1}: então o jogador é acrescentado na hora.',
  '{0} Run it on the club’s machine, with the evening’s folder for FOLDER. A second later the player is listed here.':
    '{0} Execute-o na máquina do clube, com a pasta da noite no lugar de FOLDER. Um segundo depois o jogador está '
    + 'aqui na lista.',
  '{0} is listed now: make a new link, which is shown here once.':
    '{0} já está na lista: crie um novo link, mostrado aqui uma vez.',
  'Both sides are moved here, for you alone. What you try is kept in this browser.':
    'Aqui você move os dois lados, só para si. O que você tenta fica guardado neste navegador.',
  'Clocks: {0} – {1}': 'Relógios: {0} – {1}',
  'Line {0}: the comment that begins here has no end, and the rest was taken for it.':
    'Linha {0}: o comentário que começa aqui não tem fim, e o resto foi tomado por ele.',
  'Line {0}: {1} cannot be played there. What stands before it is on the board.':
    'Linha {0}: {1} não pode ser jogado ali. O que está antes está no tabuleiro.',
  'Line {0}: {1} cannot be played there. The rest of this variation is left out.':
    'Linha {0}: {1} não pode ser jogado ali. O resto desta variante fica de fora.',
  'Decide it': 'Decidir',
  'The arbiter has decided board {0} of round {1}, {2}: {3}. Why: {4}':
    'O árbitro decidiu o tabuleiro {0} da ronda {1}, {2}: {3}. Motivo: {4}',
  'please wait': 'aguardem, por favor',
  'Make a new link for {0}, to print?': 'Criar um novo link para {0}, para imprimir?',
  'The arbiter, {0}, has ended the game. It does not count.': 'O árbitro, {0}, terminou a partida. Não conta.',
  'It does not count: not both have moved': 'Não conta: não jogaram os dois',
  'for this reason, if any': 'por este motivo, se houver',
  'Offer a draw?': 'Propor empate?',
  'It stands until your opponent declines it or moves.': 'A proposta vale até o adversário a recusar ou jogar.',
  'Board {0} of round {1}, {2}: {3}. Who does not come in time loses.':
    'Tabuleiro {0} da ronda {1}, {2}: {3}. Quem não chega a tempo perde.',
  'The game has begun.': 'A partida começou.',
  'Accept the rematch': 'Aceitar a desforra',
  'Rematch offered': 'Desforra proposta',
  'The arbiter has decided board {0} of round {1}: {2}. Why: {3}':
    'O árbitro decidiu o tabuleiro {0} da ronda {1}: {2}. Motivo: {3}',
  'The decision could not be put down: look whether round and board are right; else tell who runs the lobby.':
    'A decisão não pôde ser anotada: veja se a ronda e o tabuleiro estão certos; senão, diga a quem gere o lobby.',
  'Decide the result': 'Decidir o resultado',
  'Decide the result of game {0}: {1} – {2}': 'Decidir o resultado da partida {0}: {1} – {2}',
  'The server says {0}: {1}.': 'O servidor diz {0}: {1}.',
  '{0} has not made a move.': '{0}: nenhum lance ainda.',
  '{0} has not made a move; the clocks have run for {1} min.':
    '{0}: nenhum lance ainda; os relógios correm há {1} min.',
  'Fill in the board, the result and the reason.': 'Preencha o tabuleiro, o resultado e o motivo.',
  'This page does not know which board of which round it is: look at the pairings.':
    'Esta página não sabe que tabuleiro de que ronda é: veja os emparceiramentos.',
  '{0} did not come in time': '{0}: não chegaram a tempo',
  'neither player came in time': 'nenhum dos dois chegou a tempo',
  '{0} cannot mate by any legal moves': '{0} não podem dar mate por nenhuma série de lances legais',
  ['By 6.7 who comes after the default time loses, unless the arbiter decides otherwise. The decision ends the '
    + 'game: a resignation is entered for who has not come.']:
    'Por 6.7 perde quem chega depois do tempo de tolerância, salvo decisão do árbitro. A decisão encerra a '
    + 'partida: registra-se o abandono de quem não veio.',
  'Decide it, and end the game': 'Decidir e encerrar a partida',
  'It is decided, but game {0} was not ended. Look how it stands.':
    'Está decidido, mas a partida {0} não foi encerrada. Veja como está.',
  'By {0} it is a draw: {1} cannot mate by any legal moves. {2} has: {3}; {4} has: {5}.':
    'Por {0} é empate: {1} não podem dar mate por nenhuma série de lances legais. {2} têm: {3}; {4} têm: {5}.',
  ['By {0} it is a draw where {1} cannot mate by any legal moves. {2} has: {3}. Whether that is so depends on the '
    + 'position: the note of “chess-club results” says what the Laws say.']:
    'Por {0} é empate se {1} não podem dar mate por nenhuma série de lances legais. {2} têm: {3}. Se é assim '
    + 'depende da posição: a nota de “chess-club results” diz o que dizem as Leis.',
  'By the Laws a draw (5.2.2): neither side can mate by any legal moves':
    'Pelas Leis é empate (5.2.2): nenhum lado pode dar mate por lances legais',
  'By the Laws a draw ({0}): {1} cannot mate by any legal moves':
    'Pelas Leis é empate ({0}): {1} não podem dar mate por nenhuma série de lances legais',
  '{0} can still mate ({1}), as by {2}': '{0} ainda podem dar mate ({1}), por exemplo com {2}',
  'Whether {0} could still mate by any legal moves ({1}) was not found out':
    'Não se pôde apurar se {0} ainda poderiam dar mate por lances legais ({1})',
  'It has its king alone.': 'Só resta o rei.',
  'No such men ever mate.': 'Com essas peças nunca há mate.',
  'Each position that can still come was looked at.': 'Foi vista cada posição que ainda pode surgir.',
  'Lines of the log: {0}; the last was put at {1}. Its sum, to be written down as a round ends:':
    'Linhas do registro: {0}; a última foi escrita em {1}. A soma dela, para anotar ao fim de uma rodada:',
  'The club’s machine says of the round’s files: {0}': 'A máquina do clube diz dos arquivos da rodada: {0}',
  'The log is empty.': 'O registro está vazio.',
  'Line {0} of the log does not fit behind the line before it.':
    'A linha {0} do registro não se ajusta à linha anterior.',
  '1–0: White wins': '1–0: brancas vencem',
  '½–½: a draw': '½–½: empate',
  '0–1: Black wins': '0–1: pretas vencem',
  '½–0: half a point for White alone': '½–0: meio ponto só para as brancas',
  '0–½: half a point for Black alone': '0–½: meio ponto só para as pretas',
  '0–0: both lose': '0–0: ambos perdem',
  '+ –: Black did not come': '+ –: as pretas não vieram',
  '– +: White did not come': '– +: as brancas não vieram',
  '– –: neither came': '– –: ninguém veio',
  'as it was played': 'como foi jogado',
  '{0}, not rated': '{0}, sem valer para rating',
  '1–0, not rated: not both have moved': '1–0, sem valer para rating: nem ambos jogaram',
  '½–½, not rated: not both have moved': '½–½, sem valer para rating: nem ambos jogaram',
  '0–1, not rated: not both have moved': '0–1, sem valer para rating: nem ambos jogaram',
  'As it was played: what was decided counts no more': 'Como foi jogado: o que foi decidido já não vale',
  'Article': 'Artigo',
  ['A decision counts in place of what the server says: in results, reports and standings. The game’s own record '
    + 'stays as it is, and the last decision about a board counts. Everybody is told it.']:
    'Uma decisão vale no lugar do que diz o servidor: em resultados, relatórios e classificações. O registro '
    + 'da partida fica como está, e vale a última decisão sobre um tabuleiro. Todos são informados.',
  'Decide a result': 'Decidir um resultado',
  'The game’s number': 'Número da partida',
  'Game {0} goes on: first its result is entered.': 'A partida {0} continua: primeiro se registra o resultado.',
  'No such board was told of this round.': 'Desta ronda não se conhece tal tabuleiro.',
  'No game is known of this board.': 'Deste tabuleiro não se conhece nenhuma partida.',
  'Decide the result of board {0} of round {1}: {2}': 'Decidir o resultado do tabuleiro {0} da ronda {1}: {2}',
  'Board {0} of round {1} is the bye of {2}.': 'O tabuleiro {0} da ronda {1} é a folga de {2}.',
  'Board {0} of round {1} is of {2} and {3}, and not of these two.':
    'O tabuleiro {0} da ronda {1} é de {2} e {3}, e não destes dois.',
  'Decide about that board all the same?': 'Decidir sobre esse tabuleiro mesmo assim?',
  'Or the round': 'Ou a ronda',
  'and the board': 'e o tabuleiro',
  'Of a board that may have no game': 'De um tabuleiro que pode não ter partida',
  'Default time, min': 'Tolerância, min',
  '{0} has not come within the default time, {1} min': '{0}: não chegaram no tempo de tolerância, {1} min',
  '{0} has come after the default time, {1} min': '{0}: chegaram depois do tempo de tolerância, {1} min',
  'Neither player has come within the default time, {0} min': 'Nenhum dos dois chegou no tempo de tolerância, {0} min',
  'The disk has no room for the lobby’s log: no new game begins until it has. Games that were begun go on.':
    'Não há espaço no disco para o registro do lobby: até haver, nenhuma partida nova começa. As já começadas '
    + 'continuam.',
  'The position on the board stands for the first time.': 'A posição no tabuleiro acontece pela primeira vez.',
  'The position on the board has stood {0} times.': 'A posição no tabuleiro já aconteceu {0} vezes.',
  '{0} is the full name of {1}: write which of them it is': '{0} é o nome completo de {1}: escreva qual deles é',
  'These signs cannot be sent: {0}. Write it without them.':
    'Estes sinais não podem ser enviados: {0}. Escreva sem eles.',
  'It is told so: {0}': 'Será dito assim: {0}',
  'The pairings stand above now as chess-club start takes them.':
    'Os emparceiramentos estão agora acima como chess-club start os toma.',
  'In no row, and so without a point in this round: {0}': 'Em nenhuma linha, e portanto sem ponto nesta rodada: {0}',
  ['For the standings: save the pairings as {0} in the evening’s folder on the club’s machine. Once their games '
    + 'are open run the command there, with that folder for FOLDER.']:
    'Para a classificação: salve os emparceiramentos como {0} na pasta da noite, na máquina do clube. Quando as '
    + 'partidas estiverem abertas, execute lá o comando, com essa pasta no lugar de FOLDER.',
  '{0} has no opponent: a bye worth {1}': '{0} não tem adversário: isento, {1}',
  'Open no game: it is played elsewhere': 'Não abrir partida: é jogada noutro lugar',
  'the sign of a bye is none of U, F, H and Z': 'o sinal da folga não é nenhum de U, F, H e Z',
  'Save the pairings': 'Salvar os emparceiramentos',
  'played elsewhere': 'jogada noutro lugar',
  'Boards without a game, as those that are played elsewhere:':
    'Tabuleiros sem partida, como os que são jogados noutro lugar:',
};
