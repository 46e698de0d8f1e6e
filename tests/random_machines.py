"""Random machines, days and sheets of all models. A script sets the seed of CHANCE."""
import random

from shared import ALPHABET, CONVERTER, GREEK, MODELS, PIN_WHEELS, PLACES, ROTORS, by_wheel, row_of, shown_by

CHANCE = random.Random()


def letters(number):
    return "".join(CHANCE.choices(ALPHABET, k=number))


def pairs(number):
    """So many texts of two letters, of which no letter stands twice."""
    drawn = CHANCE.sample(ALPHABET, 2 * number)
    return ["".join(drawn[2 * i:2 * i + 2]) for i in range(number)]


def seated(model):
    """Wheels for the slots of a rotor model; on four slots the first takes a Greek one."""
    box, slots, _ = ROTORS[model]
    return CHANCE.sample(GREEK, slots - 3) + CHANCE.sample([wheel for wheel in box if wheel not in GREEK], 3)


def rotor_key(model):
    """What a day of a rotor model has besides its number, its model and its groups."""
    _, slots, reflectors = ROTORS[model]
    return {"reflector": CHANCE.choice(reflectors), "wheels": seated(model), "rings": letters(slots), "window": letters(slots),
            "plugs": pairs(CHANCE.randint(0, 13))}


def pins(share):
    """The effective pins of each wheel, so large a share of all."""
    return ["".join(letter for letter in wheel if CHANCE.random() < share) for wheel in PIN_WHEELS]


def shown_on_pins():
    """A letter of each pin wheel."""
    return "".join(map(CHANCE.choice, PIN_WHEELS))


# ---- Machines, each with a day.

def cables():
    """Cables with two letters, one, or none."""
    return [CHANCE.choice([pair, pair, pair, pair[:1], ""]) for pair in pairs(CHANCE.randint(0, 13))]


def rotor_case(model):
    """A machine and a day: the day is of its own, or the machine's with a few changes."""
    box, _, reflectors = ROTORS[model]
    machine = {"version": 2, "model": model, "reflector": CHANCE.choice(reflectors), "slots": seated(model),
               "rings": letters(len(box)), "letters": letters(len(box)), "cables": cables()}
    plugged = [cable for cable in machine["cables"] if len(cable) == 2]
    rings = by_wheel(machine, "rings")
    like = {"reflector": machine["reflector"], "wheels": machine["slots"], "rings": "".join(rings[wheel] for wheel in machine["slots"]),
            "window": shown_by(machine), "plugs": CHANCE.sample(plugged, len(plugged))}
    other = rotor_key(model)
    share = CHANCE.choice([0, 0.3, 1])
    day = {key: (other if CHANCE.random() < share else like)[key] for key in like}
    if CHANCE.random() < 0.2:
        machine["slots"] = [CHANCE.choice([wheel, ""]) for wheel in machine["slots"]]
    return machine, {"day": CHANCE.randint(1, 31), "model": model, **day}


def converter_case():
    """A Converter and a day, of its own or the machine's with a few changes."""
    def bars():
        drawn = [sorted(CHANCE.sample(range(8), 2)) for _ in range(27)]
        return [f"{PLACES[left]}-{PLACES[right]}" for left, right in drawn]

    def row(bar):
        return "-".join(CHANCE.sample(row_of(bar).split("-"), 2))

    machine = {"version": 1, "model": CONVERTER, "letters": shown_on_pins(), "pins": pins(0.5), "bars": bars()}
    like = {"rows": [row(bar) for bar in CHANCE.sample(machine["bars"], 27)], "pins": machine["pins"], "window": machine["letters"]}
    other = {"rows": [row(bar) for bar in bars()], "pins": pins(0.5), "window": shown_on_pins()}
    share = CHANCE.choice([0, 0.3, 1])
    day = {key: (other if CHANCE.random() < share else like)[key] for key in like}
    if share == 0:
        day["pins"] = [CHANCE.choice([one, two]) for one, two in zip(day["pins"], pins(0.5))]
    return machine, {"day": CHANCE.randint(1, 31), "model": CONVERTER, **day, "list": letters(2)}


def cases(number):
    """So many machines of each model, each with a day."""
    rotor = [rotor_case(model) for model in ROTORS for _ in range(number)]
    return rotor + [converter_case() for _ in range(number)]


# ---- Days of sheets.

def rotor_day(number, model):
    """A day with its rings as letters or as numbers, and up to four groups or no list of them."""
    day = {"day": number, "model": model, **rotor_key(model)}
    if CHANCE.random() < 0.5:
        day["rings"] = [ALPHABET.index(ring) + 1 for ring in day["rings"]]
    if CHANCE.random() < 0.7:
        day["groups"] = [letters(3) for _ in range(CHANCE.randint(0, 4))]
    return day


def converter_day(number):
    """A day of a Converter; a third of its rows has no lug."""
    def row():
        return CHANCE.choice(["0-0", *("-".join(CHANCE.sample("0123456", 2)) for _ in range(2))])

    return {"day": number, "model": CONVERTER, "rows": [row() for _ in range(27)], "pins": pins(0.5), "window": shown_on_pins(),
            "list": letters(2)}


def sheet_days():
    """The days of a sheet of one model or of all, in any order; of a Converter alone at most three."""
    models = CHANCE.choice([*([model] for model in MODELS), MODELS])
    count = CHANCE.randint(1, 3) if models == [CONVERTER] else CHANCE.choice([1, 2, 5, 31])
    drawn = [(number, CHANCE.choice(models)) for number in CHANCE.sample(range(1, 32), count)]
    return [converter_day(number) if model == CONVERTER else rotor_day(number, model) for number, model in drawn]
