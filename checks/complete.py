#!/usr/bin/env python3
"""Usage: checks/complete.py bash|zsh FOLDER

Types each line of standard input at a terminal into this shell, which has the completions of the
folder, asks there for all that may stand in the place of the last word, and prints what the line
is then: it has each match, in their order. Its status is 1 where the shell does not answer.
"""
import os
import pty
import select
import signal
import sys
import tempfile
import time

SECONDS = 20
ASK, WRITE = b'\x0f', b'\x14'
# What each shell reads at its start. A line is written to a file, which is whole once it has its
# name. No file of the user or of the system is read.
BASH = '''
PS1=
. "$FOLDER/tunes.bash"
write_line() {
    printf '%s\\n' "$READLINE_LINE" > "$WORK/new" && mv -f "$WORK/new" "$WORK/line"
    READLINE_LINE=
}
bind '"\\C-o": insert-completions'
bind -x '"\\C-t": write_line'
: > "$WORK/line"
'''
ZSH = '''
PROMPT=
fpath=($FOLDER $fpath)
autoload -Uz compinit && compinit -u -D
all_matches() { _main_complete; compstate[insert]=all compstate[list]= }
zle -C all_matches complete-word all_matches
write_line() {
    print -r -- $BUFFER > $WORK/new && mv -f $WORK/new $WORK/line
    BUFFER=
}
zle -N write_line
bindkey '^O' all_matches '^T' write_line
: > $WORK/line
'''
SHELLS = {'bash': ('.bashrc', BASH, ['bash', '--noprofile', '--rcfile']),
          'zsh': ('.zshrc', ZSH, ['zsh', '-d', '-i'])}


class Terminal:
    """A shell at a terminal of its own."""

    def __init__(self, shell, folder, work):
        self.line = os.path.join(work, 'line')
        name, start, words = SHELLS[shell]
        path = os.path.join(work, name)
        with open(path, 'w', encoding='ascii') as file:
            file.write(start)
        if words[-1] == '--rcfile':
            words = [*words, path, '-i']
        settings = {'FOLDER': folder, 'WORK': work, 'ZDOTDIR': work, 'TERM': 'dumb',
                    'HISTFILE': '', 'INPUTRC': '/dev/null'}
        self.process, self.descriptor = pty.fork()
        if self.process == 0:
            os.execvpe(words[0], words, {**os.environ, **settings})
        self.answer()

    def answer(self):
        """The line that the shell writes; what the terminal shows meanwhile is read away."""
        end = time.monotonic() + SECONDS
        shown = b''
        while not os.path.exists(self.line):
            if select.select([self.descriptor], [], [], 0.01)[0]:
                try:
                    shown += os.read(self.descriptor, 65536)
                except OSError:
                    end = 0
            if time.monotonic() > end:
                sys.exit(f'complete.py: no answer comes; the terminal shows {shown[-300:]}')
        with open(self.line, encoding='utf-8') as file:
            return file.read()

    def completed(self, line):
        os.remove(self.line)
        os.write(self.descriptor, line.encode() + ASK + WRITE)
        return self.answer()

    def end(self):
        os.close(self.descriptor)
        os.kill(self.process, signal.SIGKILL)
        os.waitpid(self.process, 0)


def main(words):
    if len(words) != 3 or words[1] not in SHELLS:
        sys.exit(__doc__)
    with tempfile.TemporaryDirectory() as work:
        terminal = Terminal(words[1], os.path.abspath(words[2]), work)
        for line in sys.stdin:
            print(terminal.completed(line.rstrip('\n')), end='', flush=True)
        terminal.end()


if __name__ == '__main__':
    main(sys.argv)
