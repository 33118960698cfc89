#!/usr/bin/python3
"""Tests of the stores, with the real engines. Run by callers/sql/test, which builds everything; alone, one test of them all:
tests.py SqliteStore.test_triggers."""
import unittest

import trial
from command_tests import Command  # noqa: F401
from session_tests import Sessions  # noqa: F401
from store_tests import PostgresStore, SqliteStore  # noqa: F401

if __name__ == "__main__":
    trial.set_up()
    unittest.main(verbosity=1, warnings="ignore")
