"""What a lab's programs should do, worked out from what they were told: a model follows a history's events, and says which
answer, letter, window or request is wanted next. A model is made with the name of its case and the name of the service."""
from .adders import Adder
from .common import GENERATION, numbers
from .driver import Button
from .memory import compare_arrays
from .partners import Asker, Exchange, Named
from .reports import Polls, compare_steps, compare_taken
from .servers import Names, Queue, Totals
from .windows import Stored, Windows

MODELS = {"windows": Windows, "store": Stored, "asker": Asker, "exchange": Exchange, "totals": Totals, "names": Names,
          "queue": Queue, "button": Button, "polls": Polls, "named": Named, "adder": Adder}
