"""A signal that comes while the program is being started ends it too."""
import os
import signal
import subprocess
import unittest
from unittest import mock

from office_tools import running


class Starting(unittest.TestCase):
    def setUp(self):
        for each in running.STOPS:
            self.addCleanup(signal.signal, each, signal.getsignal(each))
        for name in ("child", "starts", "late"):
            self.addCleanup(setattr, running.State, name, getattr(running.State, name))
        running.take_signals()

    def begin(self, take=None):
        """Runs a program that would take a minute, and sends a signal once it stands and before its start has been told."""
        begin = subprocess.Popen

        def started(*words, **more):
            child = begin(*words, **more)
            os.kill(os.getpid(), signal.SIGTERM)
            return child

        with mock.patch.object(running.program, "line_of", lambda words, paths: (["sleep", "60"], None)), mock.patch.object(subprocess, "Popen", started):
            with self.assertRaises(running.Stopped) as stopped:
                running.run([], take=take)
        self.assertEqual((stopped.exception.code, running.State.child.returncode), (143, -signal.SIGTERM))

    def test_whose_text_goes_on(self):
        self.begin()

    def test_whose_lines_are_taken(self):
        self.begin(take=lambda line: None)
