"""The scratch repository of rules-differ: the definitions of the rules as they stand, without the project's code and proofs,
and a crate of declarations that are to be checked over them. It lies outside the checkout, since rt ci refuses a file of Rattle that is in no crate there."""
import atexit
import os
import re
import shutil
import subprocess
import tempfile

ROOT = os.path.dirname(os.path.dirname(os.path.abspath(__file__)))
LOG = os.path.join(ROOT, 'target/rules-differ.log')
UNTOUCHED = 3735928559  # what both buffers hold beforehand
IN_A_FILE = 40  # declarations

SHAPE = '''-- How a case is written down.
use Rattle.std.specs.Prelude.{ℕ, zero, suc, ◌+◌, ◌/◌, ◌%◌, List, [], ◌∷◌, ◌++◌}
use Rattle.token.specs.Kinds.{kind_of}
use Rattle.token.specs.Tokens.{Tok, tok}
use Rattle.rules.specs.declared.options.Mode.{Mode}
use Rattle.rules.specs.declared.options.Options.{Options}
use Rattle.rules.specs.Answer.{Outcome, walked}
use Rattle.rules.specs.Entries.{Entry, parse}

-- n numbers below `limit`, packed into one
abbrev pub unpacked : ℕ → ℕ → ℕ → List ℕ
unpacked limit zero x = []
unpacked limit (suc n) x = x % limit ∷ unpacked limit n (x / limit)

abbrev pub bytes : ℕ → ℕ → List ℕ
bytes n x = unpacked 256 n x

abbrev pub words : ℕ → ℕ → List ℕ
words n x = unpacked 4294967296 n x

abbrev pub repeated : ℕ → ℕ → List ℕ
repeated zero x = []
repeated (suc n) x = x ∷ repeated n x

-- n words as they were before
abbrev pub untouched : ℕ → List ℕ
untouched n = repeated n UNTOUCHED

-- tokens that lie end to end from p, by kind and length
abbrev pub lay : List ℕ → ℕ → List Tok
lay [] p = []
lay (kind ∷ []) p = []
lay (kind ∷ long ∷ more) p = tok (kind_of kind) p (p + long) ∷ lay more (p + long)

-- the options of a mode
abbrev pub in_mode : Mode → Options
in_mode mode = record { mode = mode }

-- what an entry does with tokens that were checked
abbrev pub walk : Mode → Entry → List Tok → List ℕ → List ℕ → Outcome
walk mode entry all events errors = walked mode all ((parse entry all).items) events errors

-- refusal, place and counts; then the written words of each buffer and how many are untouched
abbrev pub gives : ℕ → ℕ → ℕ → ℕ → List ℕ → ℕ → List ℕ → ℕ → Outcome
gives refusal place events errors event_words events_left error_words errors_left =
    record {
      answer = record { refusal = refusal; place = place; events = events; errors = errors };
      events = event_words ++ untouched events_left;
      errors = error_words ++ untouched errors_left
    }

abbrev pub all_words : Outcome → List ℕ
all_words o = o.answer.refusal ∷ o.answer.place ∷ o.answer.events ∷ o.answer.errors ∷ (o.events ++ o.errors)
'''.replace('UNTOUCHED', str(UNTOUCHED))

HEAD = '''-- Lists, and what the oracle answers.
use mathlib.Core.Path.{refl}
use Rattle.std.specs.Prelude.{◌≡◌, ℕ, List, [], ◌∷◌, get_or}
use Rattle.token.specs.Kinds.{kind_of}
use Rattle.token.specs.Records.{length_at, kind_number_at}
use Rattle.token.specs.Tokens.{tokens_from, all_tokens}
use Rattle.token.specs.Check.{checked_from, checked}
use Rattle.rules.specs.Turns.{turns}
use Rattle.rules.specs.Nest.{on_open}
use Rattle.rules.specs.Lines.{line_of}
use Rattle.rules.specs.declared.options.Mode.{Mode}
use Rattle.rules.specs.Words.{looked_up, comma_between}
use Rattle.rules.specs.Entries.{document_entry, key_entry, simple_key_entry, value_entry}
use Rattle.rules.specs.Answer.{Outcome, outcome, walked, filled}
use Rattle.cases.specs.Shape.{bytes, words, repeated, untouched, lay, in_mode, walk, gives, all_words}
'''
UNFOLDING = 'unfolding kind_of length_at kind_number_at tokens_from all_tokens checked_from checked turns on_open line_of looked_up comma_between outcome walked filled'


def types_only(text):
    """The structs and enums of a source file, the modules, and what it uses of other files' types."""
    kept, item, depth = [], [], 0
    for line in text.split('\n'):
        code = line.split('//')[0].rstrip()
        item.append(code)
        depth += sum(code.count(c) for c in '{([') - sum(code.count(c) for c in '})]')
        if depth == 0 and code.endswith(('}', ';')):
            head = next(code for code in item if code and not code.startswith('#'))
            used = re.fullmatch(r'use ([\w:]*)::(?:(\w+)|\{(.*)\});', ' '.join(item).strip())
            types = [name for name in re.findall(r'\w+', used[2] or used[3]) if name[0].isupper()] if used else []
            if re.match(r'(pub )?(struct|enum|mod) ', head):
                kept += item
            elif types:
                kept.append(f'use {used[1]}::{{{", ".join(types)}}};')
            item = []
    return '\n'.join(kept) + '\n'


def reached(crates, names):
    """The spec files that the named ones use, by crate."""
    found, todo = {crate: [] for crate in crates}, list(names)
    while todo:
        crate, name = todo.pop()
        if name == 'declared' or name in found[crate]:
            continue
        found[crate].append(name)
        with open(f'{ROOT}/crates/{crate}/specs/{name}.antt', encoding='utf-8') as file:
            text = file.read()
        todo += [(crate, name) for crate, name in re.findall(r'^(?:pub )?use Rattle\.(\w+)\.specs\.(\w+)', text, re.M) if crate in found]
    return found


def write(path, text):
    os.makedirs(os.path.dirname(path), exist_ok=True)
    with open(path, 'w', encoding='utf-8') as file:
        file.write(text)


def lay_out_definitions():
    """The scratch repository with the rules and what they stand on, without code and proofs. It is there until the program ends."""
    root = tempfile.mkdtemp(prefix='rules-differ-')
    atexit.register(shutil.rmtree, root, ignore_errors=True)
    for crate, names in reached(['token', 'rules'], [('rules', 'Answer')]).items():
        here, there = f'{ROOT}/crates/{crate}', f'{root}/crates/{crate}'
        for folder, _, files in os.walk(here + '/src'):
            for name in files:
                with open(f'{folder}/{name}', encoding='utf-8') as file:
                    write(f'{there}/{os.path.relpath(folder, here)}/{name}', types_only(file.read()))
        write(there + '/specs/Lib.antt', ''.join(f'pub mod {name}\n' for name in sorted(names)))
        for name in names:
            shutil.copy(f'{here}/specs/{name}.antt', f'{there}/specs/{name}.antt')
    write(root + '/crates.txt', 'token:\nrules: token\ncases: token rules\n')
    write(root + '/crates/cases/src/lib.rt', '// Lists on which the rules are compared with the oracle.\n#![tactic(auto)]\n')
    return root


def check(root, declarations):
    """What rt says of these declarations, and whether it accepts them."""
    specs, names = root + '/crates/cases/specs', ['Shape']
    shutil.rmtree(specs, ignore_errors=True)
    write(specs + '/Shape.antt', SHAPE)
    for at in range(0, len(declarations), IN_A_FILE):
        names.append(f'Cases{at // IN_A_FILE}')
        write(f'{specs}/{names[-1]}.antt', HEAD + ''.join('\n' + text for text in declarations[at:at + IN_A_FILE]))
    write(specs + '/Lib.antt', ''.join(f'pub mod {name}\n' for name in names))
    with open(LOG, 'w', encoding='utf-8') as log:
        done = subprocess.run(['rt', 'check'], cwd=root + '/crates/cases', stdin=subprocess.DEVNULL, stdout=log, stderr=subprocess.STDOUT)
    with open(LOG, encoding='utf-8', errors='replace') as log:
        return done.returncode == 0, log.read()
