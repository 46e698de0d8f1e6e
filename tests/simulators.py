"""The machines once more, as plainly as the published rules say them, for comparisons with what the programs answer. They share no
code with the programs: the wirings are typed from the published tables, and each press follows the current or the drum by itself.
"""
from shared import ALPHABET, CONVERTER, PIN_WHEELS, ring_letters

WIRINGS = {
    "I": ("EKMFLGDQVZNTOWYHXUSPAIBRCJ", "Q"), "II": ("AJDKSIRUXBLHWTMCQGZNPYFVOE", "E"),
    "III": ("BDFHJLCPRTXVZNYEIWGAKMUSQO", "V"), "IV": ("ESOVPZJAYQUIRHXLNFTGKDCMWB", "J"),
    "V": ("VZBRGITYUPSDNHLXAWMJQOFECK", "Z"), "VI": ("JPGVOUMFYQBENHZRDKASXLICTW", "MZ"),
    "VII": ("NZJHGRCXMYSWBOUFAIVLPEKQDT", "MZ"), "VIII": ("FKQHTLXOCBJSPDZRAMEWNIUYGV", "MZ"),
    "Beta": ("LEYJVCNIXWPBQMDRTAKZGFUHOS", ""), "Gamma": ("FSOKANUERHMBTIYCWLQPZXVGJD", ""),
}
REFLECTORS = {
    "A": "EJMZALYXVBWFCRQUONTSPIKHGD", "B": "YRUHQSLDPXNGOKMIEBFZCWVJAT", "C": "FVPJIAOYEDRZXWGCTKUQSBNMHL",
    "b": "ENKQAUYWJICOPBLMDXZVFTHRGS", "c": "RDOBJNTKVEHMLFCWZAXGYIPSUQ",
}
ACTING = [15, 14, 13, 12, 11, 10]


class Enigma:
    """A rotor machine on a key: its wheels and their rings from the left, the reflector, and the pairs of letters that are plugged."""

    def __init__(self, reflector, wheels, rings, cables):
        self.reflector, self.wheels, self.rings = REFLECTORS[reflector], wheels, rings
        self.plugged = {one: other for pair in cables for one, other in (pair, pair[::-1])}
        self.shown = ["A"] * len(wheels)

    def turn_to(self, letters):
        self.shown = list(letters)

    def step(self):
        """The middle wheel at a notch moves itself and its left neighbour, the right wheel at a notch its left neighbour; the right always."""
        at_notch = [letter in WIRINGS[wheel][1] for wheel, letter in zip(self.wheels, self.shown)]
        moves = {len(self.shown) - 1}
        moves |= {len(self.shown) - 2} if at_notch[-1] else set()
        moves |= {len(self.shown) - 2, len(self.shown) - 3} if at_notch[-2] else set()
        for slot in moves:
            self.shown[slot] = ALPHABET[(ALPHABET.index(self.shown[slot]) + 1) % 26]

    def press(self, letter):
        self.step()
        at = ALPHABET.index(self.plugged.get(letter, letter))
        turned = [(ALPHABET.index(w) - ALPHABET.index(r)) % 26 for w, r in zip(self.shown, self.rings)]
        wired = [WIRINGS[wheel][0] for wheel in self.wheels]
        for wiring, offset in reversed(list(zip(wired, turned))):
            at = (ALPHABET.index(wiring[(at + offset) % 26]) - offset) % 26
        at = ALPHABET.index(self.reflector[at])
        for wiring, offset in zip(wired, turned):
            at = (wiring.index(ALPHABET[(at + offset) % 26]) - offset) % 26
        return self.plugged.get(ALPHABET[at], ALPHABET[at])


class Converter:
    """A Converter M-209 on a key: for each wheel the letters of its effective pins, and for each bar the numbers of its two lugs."""

    def __init__(self, pins, rows):
        self.pins, self.rows = pins, [tuple(map(int, row.split("-"))) for row in rows]
        self.shown = ["A"] * 6

    def turn_to(self, letters):
        self.shown = list(letters)

    def press(self, letter):
        places = [order.index(shown) for order, shown in zip(PIN_WHEELS, self.shown)]
        acts = [order[(place + past) % len(order)] in pins for order, place, past, pins in zip(PIN_WHEELS, places, ACTING, self.pins)]
        met = sum(any(number and acts[number - 1] for number in row) for row in self.rows)
        self.shown = [order[(place + 1) % len(order)] for order, place in zip(PIN_WHEELS, places)]
        return ALPHABET[(25 + met - ALPHABET.index(letter)) % 26]


def on_key(day):
    """The machine that stands on the key of a day of a sheet, given as TOML's values."""
    if day["model"] == CONVERTER:
        return Converter(day["pins"], day["rows"])
    return Enigma(day["reflector"], day["wheels"], ring_letters(day), day["plugs"])


def encipher(machine, shown, text):
    """What a machine makes of a text, from these letters in its windows."""
    machine.turn_to(shown)
    return "".join(map(machine.press, text))
