"""A build that is stopped, killed, or wanted by two runs at once; each in a process of its own."""
import fcntl
import os
import signal
import subprocess
import sys
import threading

from mapper.runs import building as built
from mapper.tests.support import ROOT
from mapper.tests.test_building import RT, Built

THREE = 'x,y,level\n1,2,3\n4,5,6\n7,9,8\n'
RUN = '''import signal, sys
from pathlib import Path
from mapper.main import main
from mapper.runs import building
signal.signal(signal.SIGINT, signal.default_int_handler)  # whoever runs the tests in the background, or by nohup, has them ignored
signal.signal(signal.SIGHUP, signal.SIG_DFL)
signal.signal(signal.SIGTERM, signal.SIG_DFL)
building.ROOT = Path(sys.argv[1])
sys.exit(main(sys.argv[2:]))'''


class Stopped(Built):
    def begun(self, **where):
        """A run of the command in this folder, once its toolchain has started something, whose number is given beside it."""
        running = subprocess.Popen([sys.executable, '-c', RUN, str(self.folder), self.file(THREE)], cwd=ROOT, start_new_session=True, **where)
        note = self.folder / 'sleeper'
        self.until(lambda: note.is_file() and note.read_text())
        return running, int(note.read_text())

    def test_ctrl_c_a_closed_window_and_a_kill(self):
        self.tool('mkdir -p ../low/out/rlib; touch ../low/out/rlib/stamp; sleep 60 & echo $! > ../../sleeper; wait')
        for stop in (signal.SIGINT, signal.SIGHUP, signal.SIGTERM):
            running, sleeper = self.begun(stdout=subprocess.PIPE, stderr=subprocess.PIPE, text=True)
            running.send_signal(stop)
            _, said = running.communicate(timeout=20)
            self.assertEqual((running.returncode, said), (130, 'map: stopped: 1 of 5 crates are proved and stay so, only the one in hand is lost. '
                                                               'The next run goes on from there; no map was written.\n'), stop)
            self.assert_gone(sleeper)
            (self.folder / 'sleeper').unlink()

    def test_another_run_is_waited_for(self):
        """What that one has built is not built again."""
        self.tool(RT % '')
        (self.folder / 'target/bin').mkdir(parents=True)
        with open(self.folder / 'target/map-build.lock', 'w') as lock:
            fcntl.flock(lock, fcntl.LOCK_EX)
            waiting = threading.Thread(target=built.program, args=[self.said.append])
            waiting.start()
            self.until(lambda: self.said)
            (self.folder / built.PROGRAM).touch()
        waiting.join(10)
        self.assertEqual(self.said, ['Another run is building it; this one waits until that is done ..'])
        self.assertFalse((self.folder / 'asked').exists())

    def test_what_is_left_of_a_run_is_waited_for(self):
        """A run that is killed leaves its toolchain behind: that has the lock still."""
        self.tool('sleep 60 & echo $! > ../../sleeper; wait')
        running, sleeper = self.begun(stdout=subprocess.DEVNULL, stderr=subprocess.DEVNULL)
        running.kill()
        running.wait()
        with open(self.folder / 'target/map-build.lock') as lock, self.assertRaises(BlockingIOError):
            fcntl.flock(lock, fcntl.LOCK_EX | fcntl.LOCK_NB)
        os.killpg(os.getpgid(sleeper), signal.SIGTERM)
        self.assert_gone(sleeper)
