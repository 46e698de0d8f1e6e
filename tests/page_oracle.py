"""Draws the page of days by itself, for a comparison with the pages that curator writes. It was written before curator, by
another hand, from the rules for the page's looks, and shares no code with it. The built desk makes the cards, carries them out, and
types the tests. What draws with words takes the function `say` of page_words.py, for its language.
"""
import os
import tempfile
import tomllib

from page_words import say_in
from shared import ALPHABET, CONVERTER, NAMES, PIN_WHEELS, PLACES, by_wheel, in_fives, letter_number, named, run, settings_of, write

SIDES = {3: ['left', 'middle', 'right'], 4: ['Greek', 'left', 'middle', 'right']}


class Refused(Exception):
    """What the desk says when it refuses."""


# The desk, and what it answers.

def answer_of(desk, *words, given=''):
    status, out, err = run(desk, *words, given=given)
    if status:
        raise Refused(err.strip())
    return out


def machine_of(text):
    m = tomllib.loads(text)
    if m['model'] != CONVERTER:
        m['ring'] = by_wheel(m, 'rings')
        m['letter'] = by_wheel(m, 'letters')
    return m


# Words.

def count(say, n):
    return say('nothing to change') if n == 0 else say('1 setting') if n == 1 else say('%d settings', n)


# The page's parts.

def tick(words, card):
    """A box to tick, the words for the hand, and the card's line."""
    return '<label><input type=checkbox> %s%s</label>' % (words, ' <code>%s</code>' % card if card else '')


def ticks(items):
    return '<ul>\n%s</ul>\n' % ''.join('<li>%s\n' % item for item in items)


def step(say, title, settings, name, inside):
    """A step's heading, with its number of settings; `name` is for print alone, where sheets come apart."""
    small = '' if settings is None else ' <small>%s</small>' % count(say, settings)
    if not inside:
        return '<section>\n<h2 class=idle>%s%s</h2>\n</section>\n' % (title, small)
    return '<section>\n<h2>%s%s<span>%s</span></h2>\n%s</section>\n' % (title, small, name, inside)


def svg(width, height, title, inside):
    return '<svg role="img" viewBox="0 0 %d %d"><title>%s</title>\n%s</svg>\n' % (width, height, title, inside)


def text(x, y, size, it, kind):
    return '<text%s x="%d" y="%d" font-size="%d">%s</text>\n' % (kind and ' class="%s"' % kind, x, y, size, it)


def rect(x, y, width, height, kind):
    return '<rect%s x="%d" y="%d" width="%d" height="%d"/>\n' % (kind and ' class="%s"' % kind, x, y, width, height)


def circle(x, y, radius, kind):
    return '<circle%s cx="%d" cy="%d" r="%d"/>\n' % (kind and ' class="%s"' % kind, x, y, radius)


# The picture of the wheels: a band for before and a band for after.

def band(say, y, m, word, seated, reflected, ringed, turned):
    """A reflector and its wheels in their slots, from the top y. What the card sets is framed thick, and bold."""
    frame = lambda is_set: 'set' if is_set else ''
    bold = lambda is_set: 'bold' if is_set else ''
    out = text(2, y + 16, 20, say(word), 'label bold')
    for label, down in (('wheel', 54), ('ring', 84), ('window', 125)):
        out += text(2, y + down, 18, say(label), 'label')
    out += text(134, y + 16, 18, say('reflector'), '') + rect(96, y + 24, 76, 122, frame(reflected))
    out += text(134, y + 54, 20, m['reflector'], bold(reflected))
    for slot, wheel in enumerate(m['slots']):
        x = 184 + 104 * slot
        out += text(x + 48, y + 16, 18, say('slot %d', slot + 1), '') + rect(x, y + 24, 96, 122, frame(slot in seated))
        if not wheel:
            out += text(x + 48, y + 54, 20, say('empty'), '')
            continue
        out += text(x + 48, y + 54, 20, wheel, bold(slot in seated))
        if wheel in ringed:
            out += rect(x + 10, y + 64, 76, 28, 'set')
        out += text(x + 48, y + 85, 20, named(m['ring'][wheel]), bold(wheel in ringed))
        out += rect(x + 10, y + 99, 40, 40, frame(slot in turned))
        out += text(x + 30, y + 128, 26, m['letter'][wheel], bold(slot in turned))
        out += text(x + 70, y + 126, 20, letter_number(m['letter'][wheel]), bold(slot in turned))
    return out


def in_words(say, m):
    return say('reflector %s', m['reflector']) + ''.join(
        '; ' + (say('slot %d: wheel %s, ring %s, window %s', slot + 1, w, m['ring'][w], m['letter'][w]) if w else
                say('slot %d: empty', slot + 1))
        for slot, w in enumerate(m['slots']))


def wheels_picture(say, before, after, settings):
    of = lambda word: [s for s in settings if s[0] == word]
    sets = ({int(s[1]) - 1 for s in of('SEAT')}, bool(of('REFLECTOR')), {s[1] for s in of('RING')},
            {int(s[1]) - 1 for s in of('TURN')})
    if not settings:
        return svg(600, 150, say('The wheels, from the left: %s.', in_words(say, after)), band(say, 0, after, 'after', *sets))
    return svg(600, 314, say('The wheels, from the left. Before: %s. After: %s.', in_words(say, before), in_words(say, after)),
               band(say, 0, before, 'before', (), False, (), ()) + band(say, 164, after, 'after', *sets))


# The picture of the plugboard: sockets in the order of the keyboard; each cable has a lane of its own.

ROWS = ['QWERTZUIO', 'ASDFGHJK', 'PYXCVBNML']
ROW_X, ROW_Y, EXIT, LETTER_Y = [40, 70, 40], [46, 116, 286], [0, 0, 10], [24, 94, 323]


def socket(letter):
    """Row and centre of a socket."""
    row = [letter in r for r in ROWS].index(True)
    return row, ROW_X[row] + 60 * ROWS[row].index(letter), ROW_Y[row]


def cable_line(cable, ends, kind):
    """From the left plug straight to the cable's lane, along the lane, and straight to the right plug."""
    lane = 139 + 9 * cable
    points = sorted((socket(end)[1] + EXIT[socket(end)[0]], socket(end)[2]) for end in ends)
    beside_lane = [lane - 5 if y < lane else lane + 5 for x, y in points]
    (x, y), near = points[0], beside_lane[0]
    line = 'M%d %dV%dQ%d %d %d %d' % (x, y, near, x, lane, x + 5, lane)
    if len(ends) == 1:
        line += 'H%d' % (x + 20)
    else:
        (x, y), near = points[1], beside_lane[1]
        line += 'H%dQ%d %d %d %dV%d' % (x - 5, x, lane, x, near, y)
    return '<path%s d="%s"/>\n' % (kind and ' class="%s"' % kind, line)


def board(cables, moved, kind, title):
    """The plugboard with these cables. The plugs at the letters `moved`, and their cables, are of this kind."""
    out, cable_at = '', {}
    for i, ends in enumerate(cables):
        for end in ends:
            cable_at[end] = i + 1
        if ends:
            out += cable_line(i + 1, ends, kind if any(end in moved for end in ends) else '')
    for letter in ''.join(ROWS):
        row, x, y = socket(letter)
        out += text(x, LETTER_Y[row], 22, letter, 'bold' if letter in moved else '')
        if letter not in cable_at:
            out += circle(x, y, 4, 'free')
            continue
        if letter not in moved:
            out += circle(x, y, 15, '')
        elif kind == 'out':
            out += rect(x - 15, y - 15, 30, 30, 'out')
        else:
            out += circle(x, y, 15, 'in')
        out += text(x, y + 6, 17, cable_at[letter], 'on' if letter in moved and kind == 'in' else '')
    return svg(560, 336, title, out)


def joined(say, cables):
    return ', '.join('%d %s' % (i + 1, '-'.join(c)) for i, c in enumerate(cables) if c) or say('none')


def plug_table(say, moves, head):
    rows = {}
    for s in moves:
        rows.setdefault(s[1], []).append('<td>' + tick('<b>%s</b>' % s[2], ' '.join(s)))
    return '<table class=plugs>\n<tr><th scope=col>%s<th scope=col colspan=2>%s\n%s</table>\n' % (
        say('Cable'), say(head), ''.join('<tr><th scope=row>%s%s\n' % (cable, ''.join(row)) for cable, row in rows.items()))


def plug_step(say, title, cables, moves, kind, caption, name):
    """The plugboard, and beside it the plugs to move, cable by cable."""
    word = 'before' if kind == 'out' else 'after'
    picture = board(cables, {s[2] for s in moves}, kind, say('The plugboard %s. Cables: %%s.' % word, joined(say, cables)))
    inside = '<div class=beside><figure>%s<figcaption>%s</figcaption></figure>\n%s</div>\n' % (
        picture, say(caption if moves else 'After. Circle: stays. Number: the cable’s.'),
        plug_table(say, moves, 'take out at' if kind == 'out' else 'put in at') if moves else '')
    return step(say, title, len(moves), name, inside if any(cables) and (moves or kind == 'in') else '')


# The page of an Enigma.

def from_box(say, before, after, told, m):
    """These words, and the rings on machine `m` of the wheels that come from the box, from the left; nothing if none comes."""
    wheels = ['<b>%s</b> (%s)' % (w, named(m['ring'][w])) for w in after['slots'] if w and w not in before['slots']]
    return '<p>%s %s</p>\n' % (say(told), ' '.join(wheels)) if wheels else ''


def enigma(say, before, after, settings, name):
    of = lambda word: [s for s in settings if s[0] == word]
    sides = SIDES[len(after['slots'])]
    place = lambda w: (say('slot %d', before['slots'].index(w) + 1) if w in before['slots'] else
                       say('the box, with its ring at <b>%s</b>', named(after['ring'][w])))
    rings = [tick(say('wheel <b>%s</b>: set the ring to <b>%s</b>', s[1], named(s[2])), ' '.join(s)) for s in of('RING')]
    seats = [tick(say('slot %s, %s: put in wheel <b>%s</b>, from %s', s[1], say(sides[int(s[1]) - 1]), s[2], place(s[2])), ' '.join(s))
             for s in of('SEAT')]
    seats += [tick(say('put in reflector <b>%s</b>', s[1]), ' '.join(s)) for s in of('REFLECTOR')]
    gone = ['<b>%s</b>' % w for w in before['slots'] if w and w not in after['slots']]
    if before['reflector'] != after['reflector']:
        gone.append(say('reflector <b>%s</b>', before['reflector']))
    boxed = '<p>%s %s</p>\n' % (say('Take out, into the box:'), ' '.join(gone)) if gone else ''
    turns = {int(s[1]) - 1: ' '.join(s) for s in of('TURN')}
    windows = [tick(say('slot %d: turn the wheel until <b>%s</b> shows', slot + 1, named(after['letter'][w])), turns.get(slot))
               for slot, w in enumerate(after['slots'])]
    ringed = from_box(say, before, after, 'Rings of the wheels from the box, after this step:', after)
    return '<figure class=wheels>%s</figure>\n' % wheels_picture(say, before, after, settings) \
        + from_box(say, before, after, 'Compare these rings in the box, too:', before) \
        + step(say, say('1 Rings: wheels out, and back in' if rings else '1 Rings'), len(rings), name, ringed + ticks(rings) if rings else '') \
        + step(say, say('2 Wheels and reflector'), len(seats), name, boxed + ticks(seats) if seats else '') \
        + plug_step(say, say('3 Plugs out'), before['cables'], of('PULL'), 'out',
                    'Before. Square: take out. Circle: stays. Number: the cable’s.', name) \
        + plug_step(say, say('4 Plugs in'), after['cables'], of('PUT'), 'in',
                    'After. Disc: put in. Circle: stays. Number: the cable’s.', name) \
        + step(say, say('5 Windows'), len(turns) or None, name,
               '<p>%s</p>\n' % say('Set all of them: typing may have turned the wheels.') + ticks(windows))


# The page of a Converter.

def pin_wheel(say, i, after, settings):
    """One wheel: a head, and two rows of letters, A to M and N to Z, each letter in its own column."""
    moves = {s[2]: s[3] for s in settings if s[0] == 'PIN' and int(s[1]) == i + 1}
    out = '<tbody>\n<tr><th scope=rowgroup colspan=13>%s <small>%s</small>%s\n' % (
        say('Wheel %d', i + 1), count(say, len(moves)), ' <code>PIN %d</code>' % (i + 1) if moves else '')
    for half in (ALPHABET[:13], ALPHABET[13:]):
        out += '<tr>'
        for letter in half:
            dot = '●' if letter in after['pins'][i] else '○'
            if letter not in PIN_WHEELS[i]:
                out += '<td>'
            elif letter in moves:
                out += '<td class=set><label><input type=checkbox><b>%s</b><br>%s<small>%s</small></label>' % (letter, dot, say(moves[letter]))
            else:
                out += '<td>%s<br>%s' % (letter, dot)
        out += '\n'
    return out


def bar_row(say, i, before, after, settings):
    """One bar: what stands at its eight places, and the lugs to move, in the card's order."""
    was, now = before['bars'][i].split('-'), after['bars'][i].split('-')
    moves = [s for s in settings if s[0] == 'LUG' and int(s[1]) == i + 1]
    out = '<tr%s><th scope=row>%d' % (' class=set' if moves else '', i + 1)
    for place in PLACES:
        out += '<td>' + ('▪' if place in was and place in now else '×' if place in was else '■' if place in now else '')
    for place in range(2):
        out += '<td>'
        if place < len(moves):
            _, _, lug, to = moves[place]
            left = lug == 'L'
            words = say(f"{'left' if left else 'right'} lug from %s to <b>%s</b>", was[0 if left else 1], to)
            out += tick(words, ' '.join(moves[place]))
    return out + '\n'


def converter(say, before, after, settings, name):
    number_of = lambda word: sum(s[0] == word for s in settings)
    turns = {int(s[1]) - 1: ' '.join(s) for s in settings if s[0] == 'TURN'}
    pins = '<table class=pins>\n<caption>%s</caption>\n%s</table>\n' % (
        say('Pins after: ● effective, ○ not. Framed pins are to change: ON makes a pin effective, OFF not.'),
        ''.join(pin_wheel(say, i, after, settings) for i in range(6)))
    drum = '<table class=drum>\n<caption>%s</caption>\n<thead>\n<tr><th scope=col>%s%s<th scope=col colspan=2>%s\n<tbody>\n%s</table>\n' % (
        say('▪ a lug stays here, × a lug leaves, ■ a lug comes. Move the lugs of a bar in the order shown.'), say('Bar'),
        ''.join('<th scope=col>' + place for place in PLACES), say('Lugs to move'), ''.join(bar_row(say, i, before, after, settings) for i in range(27)))
    letters = '<p>%s</p>\n<table class=letters>\n<tr><th scope=row>%s%s\n<tr><th scope=row>%s%s\n</table>\n' % (
        say('Set all of them: enciphering may have turned the wheels.'), say('Wheel'),
        ''.join('<th scope=col>%d' % (i + 1) for i in range(6)), say('letter'),
        ''.join('<td>' + tick('<b>%s</b>' % letter, turns.get(i)) for i, letter in enumerate(after['letters'])))
    return step(say, say('1 Pins'), number_of('PIN'), name, pins) + step(say, say('2 Lugs'), number_of('LUG'), name, drum) \
        + step(say, say('3 Letters'), len(turns) or None, name, letters)


# A day, and a file of days.

def sheet_name(sheet):
    """The name of a sheet's file without folder and ending, and without signs that a page could take for its own."""
    return ''.join(sign for sign in os.path.splitext(os.path.basename(sheet))[0] if sign not in '<>&')


def article(say, desk, machine_file, sheet, day, folder):
    """The day's article, its number of settings, and the file of the machine after it."""
    card = answer_of(desk, 'card', machine_file, sheet, day)
    set_machine = answer_of(desk, 'apply', machine_file, write('%s/card-%s' % (folder, day), card))
    after_file = write('%s/day-%s.toml' % (folder, day), set_machine)
    before, after = machine_of(answer_of(desk, 'apply', machine_file, '/dev/null')), machine_of(set_machine)
    settings = [line.split() for line in settings_of(card)]
    is_converter = after['model'] == CONVERTER
    keys = 'A' * 26 if is_converter else ALPHABET
    lamps = answer_of(desk, 'type', after_file, given=keys).strip()
    name = say('%s, day %s, %s', NAMES[after['model']], day, sheet_name(sheet))
    first = say('First compare. Framed pins still stand the other way, all others as drawn; the lugs are at ▪ and ×.' if is_converter else
                'First compare the machine with <i>before</i>; only windows may differ. Thick frames: to set.' if settings else
                'The machine has to stand as shown; only windows may differ.')
    shown = ' '.join(after['letters']) if is_converter else ', '.join(named(after['letter'][w]) for w in after['slots'])
    test = '<p>%s</p>\n<pre>%s\n<b>%s</b></pre>\n<p>%s</p>\n<p class=fields><span>%s</span></p>\n%s' % (
        say('Set the knob to C, and encipher 26 times A. The machine has to print the second line:' if is_converter else
            'Type the alphabet. The lamps have to give the second line:'),
        in_fives(keys), in_fives(lamps), say('Then set the letters to <b>%s</b> again.' if is_converter else 'Then set the windows to <b>%s</b> again.', shown),
        say('Letters when put away' if is_converter else 'Windows when put away'),
        '<p class=note>%s</p>\n' % say('%s; fewer aren’t possible.', count(say, len(settings))) if settings else '')
    out = '<article id=day-%s>\n<header>\n<h1>%s <small>%s</small></h1>\n<p class=fields><span>%s</span><span>%s</span><span>%s</span></p>\n<p>%s</p>\n</header>\n%s%s</article>\n' % (
        day, name, count(say, len(settings)), say('Machine'), say('Date'), say('Done by'), first, (converter if is_converter else enigma)(say, before, after, settings, name),
        step(say, say('4 Test' if is_converter else '6 Test'), None, name, test))
    return out, len(settings), after_file, NAMES[after['model']]


def page(desk, machine, sheet, days, style, language):
    """The page of these days, each from the machine as the day before left it."""
    say = say_in(language)
    out = nav = ''
    with tempfile.TemporaryDirectory() as folder:
        for day in days:
            drawn, settings, machine, model = article(say, desk, machine, sheet, day, folder)
            out += drawn
            nav += '<li><a href="#day-%s">%s</a>, %s\n' % (day, say('Day %s', day), count(say, settings))
    title = say('%s, day %s, %s', model, days[0], sheet_name(sheet))
    if len(days) > 1:
        title = say('%s, days %s to %s, %s', model, days[0], days[-1], sheet_name(sheet))
        out = '<nav class=days aria-label="%s">\n<p>%s</p>\n<ul>\n%s</ul>\n</nav>\n' % (say('Days'), title, nav) + out
    return '<!DOCTYPE html>\n<html lang=%s>\n<meta charset=utf-8>\n<meta name=viewport content="width=device-width,initial-scale=1">\n<title>%s</title>\n<style>\n%s</style>\n<body>\n<main>\n%s</main>\n' % (
        language, title, style, out)
