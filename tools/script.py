"""What the scripts in Python share: usage, one line for what is wrong, and a checkout that cannot be written to. tools/script.sh is the same for
those in bash."""
import os
import signal
import sys


class Script:
    """A script by its name in messages and its documentation, which --help prints."""

    def __init__(self, name, documentation):
        self.name, self.documentation = name, documentation

    def stop(self, why):
        print(f'{self.name}: {why}', file=sys.stderr)
        sys.exit(2)

    def words(self, flags=()):
        """The words that were given, behind the flags among them; ends where one asks for help, or where an option is not one of the flags."""
        words = sys.argv[1:]
        if words[:1] in (['--help'], ['-h']):
            signal.signal(signal.SIGPIPE, signal.SIG_DFL)
            print(self.documentation.strip())
            sys.exit(0)
        for word in words:
            if word.startswith('-') and word not in flags:
                self.stop(f'there is no option {word} (--help lists them)')
        return [word for word in words if word not in flags], {word for word in words if word in flags}

    def none(self):
        """For a script that takes no words."""
        words, _ = self.words()
        if words:
            self.stop(f"takes no words, and was given '{words[0]}' (--help says what it does)")

    def folder(self, holds, default):
        """The folder that was given, if one was, which must hold this."""
        words, _ = self.words()
        if len(words) > 1:
            self.stop(f"a word too many: '{words[1]}' (--help has the usage)")
        if words and not os.path.exists(os.path.join(words[0], holds)):
            self.stop(f'there is no {os.path.join(words[0], holds)}')
        return words[0] if words else default

    def number(self, word, name, least=0):
        """A number that was given, of 64 bits."""
        if not (word.isascii() and word.isdigit() and len(word) <= 20 and least <= int(word) < 1 << 64):
            self.stop(f"{name} is a number of at least {least} and below 2^64, and not '{word[:40]}'")
        return int(word)

    def numbers(self, words, *defaults):
        """The numbers that were given, in their order, each with its name, its default and the least that it may be."""
        if len(words) > len(defaults):
            self.stop(f"a word too many: '{words[len(defaults)]}' (--help has the usage)")
        given = [self.number(word, name, least) for word, (name, _, least) in zip(words, defaults)]
        return given + [default for _, default, _ in defaults[len(words):]]

    def writable(self, root):
        """Ends with one line where target/, which holds all that is built, cannot be written to."""
        target = os.path.join(root, 'target')
        try:
            os.makedirs(target, exist_ok=True)
        except OSError:
            pass
        if not os.access(target, os.W_OK):
            self.stop(f"cannot write to {target}, where all that is built goes: the checkout is read-only, or another user's")
