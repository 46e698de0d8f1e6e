"""The words of the page of a day and of the key table, in English and in German. `%s` and `%d` stand for values, in the same order in both
languages. They are the design's, and typed apart from the program's.
"""

DAY_PAGE = {
    '%s, day %s, %s': '%s, Tag %s, %s',
    '%s, days %s to %s, %s': '%s, Tage %s bis %s, %s',
    'Days': 'Tage',
    'Day %s': 'Tag %s',
    'nothing to change': 'nichts zu ändern',
    '1 setting': '1 Handgriff',
    '%d settings': '%d Handgriffe',
    'Machine': 'Maschine',
    'Date': 'Datum',
    'Done by': 'Ausgeführt von',
    'First compare the machine with <i>before</i>; only windows may differ. Thick frames: to set.':
        'Zuerst die Maschine mit <i>vorher</i> vergleichen; nur die Fenster dürfen abweichen. Dick Umrahmtes ist einzustellen.',
    'The machine has to stand as shown; only windows may differ.':
        'Die Maschine muss wie gezeigt stehen; nur die Fenster dürfen abweichen.',
    'First compare. Framed pins still stand the other way, all others as drawn; the lugs are at ▪ and ×.':
        'Zuerst vergleichen. Umrahmte Stifte stehen noch umgekehrt, alle übrigen wie gezeichnet; die Reiter sind bei ▪ und ×.',
    'before': 'vorher',
    'after': 'nachher',
    'wheel': 'Walze',
    'ring': 'Ring',
    'window': 'Fenster',
    'reflector': 'UKW',
    'slot %d': 'Platz %d',
    'empty': 'leer',
    'left': 'links',
    'middle': 'Mitte',
    'right': 'rechts',
    'Greek': 'Griechenwalze',
    'The wheels, from the left: %s.': 'Die Walzen, von links: %s.',
    'The wheels, from the left. Before: %s. After: %s.': 'Die Walzen, von links. Vorher: %s. Nachher: %s.',
    'reflector %s': 'Umkehrwalze %s',
    'slot %d: wheel %s, ring %s, window %s': 'Platz %d: Walze %s, Ring %s, Fenster %s',
    'slot %d: empty': 'Platz %d: leer',
    '1 Rings: wheels out, and back in': '1 Ringstellung: Walzen heraus, danach wieder hinein',
    '1 Rings': '1 Ringstellung',
    '2 Wheels and reflector': '2 Walzenlage und Umkehrwalze',
    '3 Plugs out': '3 Stecker ziehen',
    '4 Plugs in': '4 Stecker stecken',
    '5 Windows': '5 Fenster',
    '6 Test': '6 Probe',
    'wheel <b>%s</b>: set the ring to <b>%s</b>': 'Walze <b>%s</b>: Ring auf <b>%s</b> stellen',
    'slot %s, %s: put in wheel <b>%s</b>, from %s': 'Platz %s, %s: Walze <b>%s</b> einsetzen, aus %s',
    'the box, with its ring at <b>%s</b>': 'dem Kasten, Ring auf <b>%s</b>',
    'put in reflector <b>%s</b>': 'Umkehrwalze <b>%s</b> einsetzen',
    'Take out, into the box:': 'Herausnehmen, in den Kasten:',
    'Compare these rings in the box, too:': 'Auch diese Ringe im Kasten vergleichen:',
    'Rings of the wheels from the box, after this step:': 'Ringe der Walzen aus dem Kasten nach diesem Schritt:',
    'reflector <b>%s</b>': 'Umkehrwalze <b>%s</b>',
    'slot %d: turn the wheel until <b>%s</b> shows': 'Platz %d: Walze drehen, bis <b>%s</b> erscheint',
    'Set all of them: typing may have turned the wheels.': 'Alle einstellen: Beim Tippen können sich die Walzen gedreht haben.',
    'Set all of them: enciphering may have turned the wheels.': 'Alle einstellen: Beim Schlüsseln können sich die Räder gedreht haben.',
    'The plugboard before. Cables: %s.': 'Das Steckerbrett vorher. Steckerverbindungen: %s.',
    'The plugboard after. Cables: %s.': 'Das Steckerbrett nachher. Steckerverbindungen: %s.',
    'none': 'keine',
    'Cable': 'Schnur',
    'take out at': 'ziehen bei',
    'put in at': 'stecken bei',
    'Before. Square: take out. Circle: stays. Number: the cable’s.': 'Vorher. Quadrat: ziehen. Kreis: bleibt. Zahl: Nummer der Schnur.',
    'After. Disc: put in. Circle: stays. Number: the cable’s.': 'Nachher. Gefüllter Kreis: stecken. Kreis: bleibt. Zahl: Nummer der Schnur.',
    'After. Circle: stays. Number: the cable’s.': 'Nachher. Kreis: bleibt. Zahl: Nummer der Schnur.',
    'Type the alphabet. The lamps have to give the second line:': 'Das Alphabet eintippen. Die Lampen müssen die zweite Zeile ergeben:',
    'Set the knob to C, and encipher 26 times A. The machine has to print the second line:':
        'Den Knopf auf C stellen und 26-mal A schlüsseln. Die Maschine muss die zweite Zeile drucken:',
    'Then set the windows to <b>%s</b> again.': 'Danach die Fenster wieder auf <b>%s</b> einstellen.',
    'Then set the letters to <b>%s</b> again.': 'Danach die Räder wieder auf <b>%s</b> einstellen.',
    '%s; fewer aren’t possible.': '%s; mit weniger geht es nicht.',
    '1 Pins': '1 Stifte',
    'Pins after: ● effective, ○ not. Framed pins are to change: ON makes a pin effective, OFF not.':
        'Stifte nachher: ● wirksam, ○ unwirksam. Umrahmte Stifte umstellen: EIN macht wirksam, AUS unwirksam.',
    'Wheel %d': 'Rad %d',
    'ON': 'EIN',
    'OFF': 'AUS',
    '2 Lugs': '2 Reiter',
    '▪ a lug stays here, × a lug leaves, ■ a lug comes. Move the lugs of a bar in the order shown.':
        '▪ Reiter bleibt, × Reiter geht, ■ Reiter kommt. Die Reiter einer Stange in der gezeigten Reihenfolge versetzen.',
    'Bar': 'Stange',
    'Lugs to move': 'Reiter versetzen',
    'left lug from %s to <b>%s</b>': 'linker von %s auf <b>%s</b>',
    'right lug from %s to <b>%s</b>': 'rechter von %s auf <b>%s</b>',
    '3 Letters': '3 Buchstaben',
    'Wheel': 'Rad',
    'letter': 'Buchstabe',
    '4 Test': '4 Probe',
    'Windows when put away': 'Buchstaben in den Fenstern beim Wegräumen',
    'Letters when put away': 'Buchstaben beim Wegräumen',
    'Windows': 'Fenster',
    'Letters': 'Buchstaben',
}

KEY_TABLE = {
    'The sheet has no days.': 'Die Schlüsseltafel hat keine Tage.',
    'Key table': 'Schlüsseltafel',
    '%s: key table': '%s: Schlüsseltafel',
    'days %d to %d': 'Tag %d bis %d',
    'day %d': 'Tag %d',
    'Day': 'Tag',
    'Reflector': 'Umkehrwalze',
    'Wheels': 'Walzenlage',
    'Rings': 'Ringstellung',
    'Cables': 'Steckerverbindungen',
    'Ground': 'Grundstellung',
    'Groups': 'Kenngruppen',
    'Network': 'Schlüsselkreis',
    'Month': 'Monat',
    'Copy': 'Prüfnummer',
    'After use, cut off the day at the bottom.': 'Nach Gebrauch den untersten Tag abschneiden.',
    '%s, day %d: key list %s': '%s, Tag %d: Schlüsselliste %s',
    'Lugs': 'Reiter',
    'Effective pins of wheel': 'Wirksame Stifte von Rad',
    '26-letter check': '26-Buchstaben-Probe',
    'Wheels at A A A A A A, knob at C: 26 times A prints the check. Letters of the day: %s.':
        'Räder auf A A A A A A, Knopf auf C: 26-mal A druckt die Probe. Buchstaben des Tages: %s.',
}

GERMAN = {**DAY_PAGE, **KEY_TABLE}


def say_in(language):
    """The function that says a fixed text of these pages, with its values, in a language."""
    def say(text, *values):
        text = GERMAN[text] if language == 'de' else text
        return text % values if values else text
    return say
