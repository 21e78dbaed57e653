"""What the proved program prints: docs/REFERENCE.md, section 13."""
import re
import struct

from mapper.errors import Refused
from mapper.runs.answers import Answer, Damaged

REFUSED = re.compile(rb'refused ([0-9]+)\n')
NODE = re.compile(rb'([0-9]+) ([0-9a-f]{16}) ([0-9a-f]{16}) ([0-9]+)')
COEF = re.compile(rb'coef ([0-9a-f]{16})')
TREND = re.compile(rb'trend ([0-9a-f]{16})')


def parsed(listing, count):
    """The answer that a listing of so many nodes is. Raises Refused, or Damaged where it is cut short or no listing."""
    refused = REFUSED.fullmatch(listing)
    if refused:
        raise Refused(int(refused.group(1)))
    lines = listing.split(b'\n')
    if lines[0] != b'nodes %d' % count or len(lines) < count + 3 or lines[-1] != b'':
        raise Damaged('it does not have %d nodes' % count)
    found = [NODE.fullmatch(line) for line in lines[1:count + 1]]
    if any(line is None or int(line.group(1)) != i + 1 for i, line in enumerate(found)):
        raise Damaged('one of its nodes is missing or not whole')
    verdicts = bytes(int(line.group(4)) for line in found)
    return Answer(floats(found, 2), floats(found, 3), verdicts, *columns_of(lines[count + 1:-1]), listing)


def columns_of(lines):
    """What follows the nodes: the multipliers, and then as many numbers of the trend's estimate."""
    multipliers = [line for line in map(COEF.fullmatch, lines) if line]
    found = [TREND.fullmatch(line) for line in lines[len(multipliers):]]
    if not multipliers or lines[:len(multipliers)] != [line.group() for line in multipliers] or None in found:
        raise Damaged('it does not end with the multipliers and the trend')
    if len(found) != len(multipliers):
        raise Damaged('its coef lines (%d) and trend lines (%d) are not as many' % (len(multipliers), len(found)))
    return floats(multipliers, 1), floats(found, 1)


def floats(found, group):
    """The numbers whose patterns these are."""
    patterns = b''.join(line.group(group) for line in found)
    return struct.unpack(f'>{len(found)}d', bytes.fromhex(patterns.decode()))
