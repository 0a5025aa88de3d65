"""What the unit tests share: the kept dumps, and answers of nlldb that were kept with them."""
import json
import sys
from pathlib import Path

sys.dont_write_bytecode = True
HERE = Path(__file__).resolve().parent
KEPT = HERE / "kept"
sys.path.insert(0, str(HERE.parent))

from nlldb_rust.checking import Checked  # noqa: E402
from nlldb_rust.crate import write_crate  # noqa: E402
from nlldb_rust.findings import answer_of  # noqa: E402
from nlldb_rust.rustc import kept_run  # noqa: E402


def kept_texts(name):
    """The texts and the answers that are kept of a source."""
    return json.loads((KEPT / name / "texts.json").read_text())


def kept_answers(name):
    """What `checking.checked` returns for a kept source, with the answers that are kept in place of a program's."""
    run, texts = kept_run(KEPT / name), kept_texts(name)
    bodies = write_crate(run.dumps, run.facts, jobs=1)
    answers = {body.name: answer_of(body, texts[body.name]["answer"]) for body in bodies if body.text}
    run.root = HERE.parent.parent
    return Checked(KEPT / name, run, bodies, answers)
