"""What the program must answer, worked out by itself from docs/FORMATS.md: it reads nothing of the program's code.

`commands` has the answers of the commands, `script` what a script means, `history` its transactions and what a stream
captures of them, `layouts` partitions, `reads` what a READ answers, `follower` which READs a replay makes and which entries
it keeps of them, `entries` what entries tell, `catalog` and `sql` statements and queries, `texts` stamps and values, `generated` the script that `gen` makes.
"""
from .commands import Answer, changes, check, gen, replay, show  # noqa: F401
from .refusal import Refusal  # noqa: F401
from .script import BadScript, State, load  # noqa: F401
