"""Settings are read once: a Config keeps them for all calls and threads."""

import copy
import gc
import os
import pickle
import threading
import unittest

import fihroste
from fihroste import Config

SHORT = "import sys\nimport mine\nimport other\n"
# Above 4,096 bytes a call gives up the interpreter's lock.
LONG = SHORT + "x = 1\n" * 2_000
PLAIN = "import sys\n\nimport mine\nimport other\n"
MINE = "import sys\n\nimport other\n\nimport mine\n"
# The keywords of a Config, how it sorts SHORT, and the section of `mine`.
ROWS = [
    ({}, PLAIN, "THIRDPARTY"),
    ({"known_first_party": ["mine"]}, MINE, "FIRSTPARTY"),
    ({"sections": ["Mine"], "known_mine": ["mine"]}, "import mine\n\nimport sys\n\nimport other\n", "Mine"),
    ({"default_section": "FIRSTPARTY"}, PLAIN, "FIRSTPARTY"),
    ({"known_standard_library": ["mine"]}, "import mine\n\nimport other\nimport sys\n", "STDLIB"),
    ({"lines_between_sections": 2}, "import sys\n\n\nimport mine\nimport other\n", "THIRDPARTY"),
]
MODULES = [f"module_{number}" for number in range(100)]
UNDER_SANITIZER = "asan" in os.environ.get("LD_PRELOAD", "")


def wanted_of(short_sorted):
    """LONG, sorted as SHORT is: a blank line stands between its imports and its code."""
    return f"{short_sorted}\n{LONG[len(SHORT):]}"


def resident_bytes():
    with open("/proc/self/statm") as numbers:
        return int(numbers.read().split()[1]) * os.sysconf("SC_PAGE_SIZE")


class Kept(unittest.TestCase):
    def assert_all_answers(self, config, short_sorted, section):
        self.assertEqual(fihroste.code(SHORT, config=config), short_sorted)
        self.assertEqual(fihroste.code(LONG, config=config), wanted_of(short_sorted))
        self.assertEqual(fihroste.check_code(SHORT, config=config), short_sorted == SHORT)
        self.assertTrue(fihroste.check_code(wanted_of(short_sorted), config=config))
        self.assertEqual(fihroste.place_module("mine", config), section)

    def test_each_call_has_the_settings_of_its_config(self):
        configs = [Config(**keywords) for keywords, _, _ in ROWS]
        for _ in range(3):
            for config, (_, short_sorted, section) in zip(configs, ROWS):
                self.assert_all_answers(config, short_sorted, section)

    def test_a_call_that_fails_leaves_the_settings(self):
        config = Config(known_first_party=["mine"])
        for _ in range(3):
            with self.assertRaises(fihroste.exceptions.ExistingSyntaxErrors):
                fihroste.code(LONG + "(\n", config=config)
            with self.assertRaises(ValueError):
                fihroste.place_module("\udc80", config)
            self.assert_all_answers(config, MINE, "FIRSTPARTY")

    def test_copies_outlive_their_config(self):
        for keywords, short_sorted, section in ROWS:
            config = Config(**keywords)
            copies = [copy.copy(config), copy.deepcopy(config), pickle.loads(pickle.dumps(config)), Config(config=config)]
            del config
            gc.collect()
            for again in copies:
                self.assert_all_answers(again, short_sorted, section)

    def test_threads_share_a_config(self):
        configs = [Config(**keywords) for keywords, _, _ in ROWS]
        differing = []

        def work(first):
            for turn in range(first, first + 60):
                config, (_, short_sorted, section) = configs[turn % len(ROWS)], ROWS[turn % len(ROWS)]
                answers = fihroste.code(SHORT, config=config), fihroste.code(LONG, config=config)
                answers += (fihroste.place_module("mine", config),)
                if answers != (short_sorted, wanted_of(short_sorted), section):
                    differing.append(turn)

        threads = [threading.Thread(target=work, args=(first,)) for first in range(8)]
        for thread in threads:
            thread.start()
        for thread in threads:
            thread.join()
        self.assertEqual(differing, [])

    def test_a_config_may_be_collected_while_it_is_used(self):
        text = SHORT * 20_000
        sorted_text = fihroste.code(text, known_first_party=["mine"])
        answers = []

        def work(configs):
            answers.append(fihroste.code(text, config=configs.pop()))

        threads = [threading.Thread(target=work, args=([Config(known_first_party=["mine"])],)) for _ in range(8)]
        for thread in threads:
            thread.start()
        while any(thread.is_alive() for thread in threads):
            # Other Configs come and go in the meantime.
            Config(known_third_party=MODULES)
            gc.collect()
        for thread in threads:
            thread.join()
        self.assertEqual(answers, [sorted_text] * 8)

    @unittest.skipIf(UNDER_SANITIZER, "a sanitizer holds freed blocks back")
    @unittest.skipUnless(os.path.exists("/proc/self/statm"), "the memory of a process is told by Linux")
    def test_a_config_gives_its_settings_back(self):
        for _ in range(200):
            Config(known_third_party=MODULES)
        before = resident_bytes()
        # They keep some 20 MB together.
        for _ in range(2_000):
            Config(known_third_party=MODULES)
        self.assertLess(resident_bytes() - before, 4_000_000)


if __name__ == "__main__":
    unittest.main()
