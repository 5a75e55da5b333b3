"""Small projects made at random, with every kind of file and no fault."""

import random


def table(header, rows):
    return "\n".join([",".join(header), *(",".join(map(str, row)) for row in rows)]) + "\n"


def amount(dice, most):
    return f"{dice.randrange(most * 10_000) / 10_000:.4f}"


def share(dice):
    return dice.choice(["0", "0.25", "0.333333", "0.5", "1", "1.5", "2E-1"])


def project(seed):
    """The files of a project, by name."""
    dice = random.Random(seed)
    units = dice.sample(range(1, 60), dice.randrange(1, 9))
    zones = dice.sample(range(1, 9), dice.randrange(1, 5))
    costs = [(i + 1, f"cost{i + 1}") for i in range(dice.randrange(1, 4))]
    features = dice.sample(range(1, 20), dice.randrange(1, 4))
    files = {
        "zones.dat": table(["zoneid", "zonename"], [(zone, f"z{zone}") for zone in zones]),
        "costs.dat": table(["costid", "costname"], costs),
        "pu.dat": table(["id", *(name for _, name in costs)], [[u, *(amount(dice, 50) for _ in costs)] for u in units]),
    }
    keys = {"PUNAME": "pu.dat", "ZONESNAME": "zones.dat", "COSTSNAME": "costs.dat", "AVAILABLEZONE": zones[0]}

    def give(key, name, header, rows):
        if dice.random() < 0.7:
            files[name] = table(header, rows)
            keys[key] = name

    pairs = [(zone, cost) for zone in zones for cost, _ in costs]
    give("ZONECOSTNAME", "zonecost.dat", ["zoneid", "costid", "multiplier"],
         [(*pair, share(dice)) for pair in pairs if dice.random() < 0.8])
    if dice.random() < 0.8:
        rows = [(f, amount(dice, 30), dice.choice(["0", share(dice)]), share(dice), f"f{f}") for f in features]
        files["feat.dat"] = table(["id", "target", "prop", "spf", "name"], rows)
        held = [(f, u, amount(dice, 20)) for f in features for u in units if dice.random() < 0.6]
        files["amounts.dat"] = table(["species", "pu", "amount"], held)
        keys |= {"FEATNAME": "feat.dat", "PUVSFEATNAME": "amounts.dat"}
        pairs = [(zone, feature) for zone in zones for feature in features]
        give("ZONECONTRIBNAME", "contrib.dat", ["zoneid", "featureid", "fraction"],
             [(*pair, share(dice)) for pair in pairs if dice.random() < 0.8])
        give("ZONETARGETNAME", "ztarget.dat", ["zoneid", "featureid", "target", "targettype"],
             [(*pair, share(dice), dice.randrange(2)) for pair in pairs if dice.random() < 0.4])
    give("PUZONENAME", "puzone.dat", ["puid", "zoneid"],
         [(u, zone) for u in units if dice.random() < 0.4 for zone in dice.sample(zones, dice.randrange(1, len(zones) + 1))])
    if "PUZONENAME" not in keys:
        give("PULOCKNAME", "pulock.dat", ["puid", "zoneid"], [(u, dice.choice(zones)) for u in units if dice.random() < 0.3])
    give("BOUNDNAME", "bound.dat", ["id1", "id2", "boundary"],
         [(dice.choice(units), dice.choice(units), amount(dice, 9)) for _ in range(dice.randrange(12))])
    pairs = [(zones[i], zones[j]) for i in range(len(zones)) for j in range(i + 1)]
    give("ZONEBOUNDCOSTNAME", "zonebound.dat", ["zoneid1", "zoneid2", "cost"],
         [(*pair, share(dice)) for pair in pairs if dice.random() < 0.8])
    start = dice.choice(["-1", "0", "3", "40"])
    keys |= {
        "BLM": share(dice), "PROP": dice.choice(["0", "0.5", "1"]), "RANDSEED": dice.randrange(1000),
        "NUMITNS": dice.randrange(60), "STARTTEMP": start, "COOLFAC": dice.choice(["0.5", "0.9", "1"]),
        "NUMTEMP": dice.randrange(1, 8), "RUNMODE": 6, "SAVEBEST": 3,
    }
    files["input.dat"] = "".join(f"{key} {value}\n" for key, value in keys.items())
    return files
