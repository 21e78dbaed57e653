"""A sheet of nodes spread over the map, run before all others: how many of them pass tells how all will do."""
import math
from array import array

from mapper.errors import Refused
from mapper.lists.nodes import unanswered
from mapper.runs.survey_file import NODES

REFUSED = -1
GOLDEN = (math.sqrt(5) - 1) / 2


def spread_over(nodes):
    """The numbers of at most a sheet of nodes, spread over all of them: by the golden section, which does not keep step with the columns of a grid as every
    hundredth node of 100 by 100 would, which are all in one column."""
    count = len(nodes)
    return range(count) if count <= NODES else sorted({int(i * GOLDEN % 1 * count) for i in range(NODES)})


def tried(made, origin, spread):
    """How many of a few nodes pass; REFUSED where the run is refused by 19, which another origin, or a larger r, may mend. Other refusals end all."""
    nodes = unanswered(array('d', (made.nodes.x[i] for i in spread)), array('d', (made.nodes.y[i] for i in spread)))
    outside = array('d', (made.outside[i] for i in spread)) if made.outside else made.outside
    try:
        return made.through(made.sheets(origin, nodes, outside), 'trial').passed
    except Refused as refused:
        if refused.number != 19:
            raise made.refused(refused.number)
        return REFUSED
