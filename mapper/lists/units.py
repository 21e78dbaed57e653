"""What a header or a field says of its numbers: their unit, and whether they are counted downwards."""
import re
from dataclasses import dataclass
from typing import Optional

from mapper.lists.header_words import words_of

FACTORS = {'m': 1.0, 'ft': 0.3048, 'cm': 0.01, 'mm': 0.001, 'km': 1000.0}  # metres in one of each
NAMED = {'m': 'metres', 'ft': 'feet', 'cm': 'centimetres', 'mm': 'millimetres', 'km': 'kilometres'}
CALLED_UNITS = {
    'm': 'm metre metres meter meters metern metro metros mtr mtrs', 'ft': 'ft foot feet', 'km': 'km kilometre kilometres kilometer kilometers kilometro',
    'cm': 'cm centimetre centimetres centimeter centimeters zentimeter centimetro', 'mm': 'mm millimetre millimetres millimeter millimeters milimetro',
}
UNITS = {word: unit for unit, words in CALLED_UNITS.items() for word in words.split()}
FOOT_MARKS = {"'", '’', '′'}
# Words beside a unit that leave it as it is: the datum that heights are counted from.
DATUMS = set('asl amsl msl aod ahd nap nn nhn odn od ngf ign69 ngvd ngvd29 navd navd88 dhhn dhhn92 dhhn2016 hn uenn uenhn uem uedm nm snm taw dvr90 rh2000 '
             'nn2000 nn1954 n2000 n60 rl evrf2007 mnm '.split())
ABOVE = set('above over mean the of ordnance datum height elevation ueber ue normalnull normalhoehennull sobre el del au dessus du de la local level nivel '
            'niveau in en hohe hoehe altitude le les'.split())
SEA = set('sea msl mer mar meer meeresspiegel meereshoehe nn nhn nap datum'.split())
BELOW = set('below beneath under underneath unter u depth dtw tiefe flurabstand profondeur profundidad sous bajo debajo'.split())
GROUND = set('ground surface land gl gs gok gelande gelaende gelandeoberkante gelaendeoberkante terrain sol suelo terreno superficie to water table '
             'groundwater grundwasser eau nappe agua'.split())
CASING = set('casing top toc mp messpunkt rok pok rohroberkante pegeloberkante collar well head tubage brocal'.split())
SHORT = {'bgl': 'ground', 'bgs': 'ground', 'bg': 'ground', 'bls': 'ground', 'begl': 'ground', 'ugok': 'ground', 'ugelande': 'ground', 'ugelaende': 'ground',
         'btoc': 'casing', 'btc': 'casing', 'bmp': 'casing', 'urok': 'casing', 'upok': 'casing', 'bsl': 'sea', 'bmsl': 'sea', 'bod': 'sea'}
# Words that are none of these, and no unit either: a day, the way places are counted, how a number was got.
SILENT = set('mean average avg median mittel mittelwert moyenne media promedio measured gemessen mesure medido static rest ruhe ruhewasserspiegel '
             'estimated spring summer autumn winter min max minimum maximum january february march april may june july august september october november '
             'december jan feb mar apr jun jul aug sep sept oct nov dec gps dgps gnss lidar dem dtm dgm mnt utm epsg zone gk mtm tm mga mga94 mga2020 '
             'gda94 gda2020 etrs etrs89 wgs wgs84 nad nad27 nad83 osgb osgb36 bng rd lambert lambert93 l93 l72 l2e dhdn mgi ch1903 lv03 lv95 sirgas '
             'sirgas2000 gauss kruger krueger nztm nztm2000 itm ing sweref99 tm35fin local grid national projected lokal date value wert no nr'.split())
ZONE = re.compile(r'[0-9]+[ns]?|(utm|gk|epsg|zone|mtm)[0-9]+[ns]?')
SYMBOLS = re.compile(r'[/^°%*"²³\\µ=<>]|\bm\s*[-−–]')  # 'm -NAP' is below it
DAY = re.compile(r'[0-9]{1,4}/[0-9]{1,2}(/[0-9]{2,4})?')


@dataclass(frozen=True)
class Unit:
    """What is said of numbers; nothing at all where all three are None."""
    name: Optional[str] = None     # 'm', 'ft', 'cm', 'mm' or 'km'
    below: Optional[str] = None    # 'ground', 'casing' or 'sea': what they are counted downwards from
    unknown: Optional[str] = None  # words that are no unit known here

    @property
    def factor(self):
        return FACTORS[self.name or 'm']


def joined(word):
    """The words in one that is written together: mnap is m nap, ftbgs is ft bgs."""
    for unit in ('ft', 'm'):
        if word not in UNITS and word.startswith(unit) and (word[len(unit):] in DATUMS or word[len(unit):] in SHORT):
            return [unit, word[len(unit):]]
    return [word]


def phrase(text):
    """What some words say: those in a header's brackets, or after its name, or behind a number."""
    if text in FOOT_MARKS:
        return Unit('ft')
    if SYMBOLS.search(text) and not DAY.fullmatch(text):
        return Unit(unknown=text)
    words = [part for word in words_of(text) for part in joined(word)]
    units = {UNITS[word] for word in words if word in UNITS}
    rest = [word for word in words if word not in UNITS and not ZONE.fullmatch(word)]
    if len(units) > 1 or words == ['in'] or not words and text.strip(' -–—'):
        return Unit(unknown=text)
    below = counted_from(rest)
    known = DATUMS | ABOVE | SEA | SILENT | (GROUND | CASING | BELOW | set(SHORT) if below else set())
    if set(rest) - known or ('u' in rest and below == 'sea'):  # 'm u. NN' is mostly a mistyped 'm ü. NN'
        return Unit(unknown=text)
    return Unit(units.pop() if units else None, below)


def counted_from(words):
    """What some words count downwards from, None where they do not."""
    for word in words:
        if word in SHORT:
            return SHORT[word]
    if not BELOW & set(words):
        return None
    return 'casing' if CASING & set(words) else 'ground' if (GROUND - {'water', 'table'}) & set(words) else 'sea' if SEA & set(words) else 'ground'


def together(phrases):
    """What several phrases say of one column."""
    found = [phrase(text) for text in phrases]
    for unit in found:
        if unit.unknown is not None:
            return unit
    names, below = {unit.name for unit in found if unit.name}, [unit.below for unit in found if unit.below]
    if len(names) > 1:
        return Unit(unknown=' and '.join(phrases))
    return Unit(names.pop() if names else None, below[0] if below else None)
