"""run.py TEST_DCONF WORD..: runs dconf's test-dconf.py with these words, and prints what its cases failed by: a list of texts for each, by its name, in JSON. A case
has a text for each of its parts that fails."""
import json
import runpy
import sys
import unittest


def run():
    result = unittest.TestResult()
    cases = [case for cases in unittest.defaultTestLoader.loadTestsFromModule(sys.modules['__main__']) for case in cases]
    found = {case.id().split('.')[-1]: [] for case in cases}
    unittest.TestSuite(cases).run(result)
    for case, text in [*result.failures, *result.errors]:
        # That of a part has its arguments behind it.
        found[case.id().split(' ')[0].split('.')[-1]].append(f'{case.id().partition(" ")[2]}: {text}')
    # The cases print, too.
    print(json.dumps(found), file=OUT)


OUT, sys.stdout = sys.stdout, sys.stderr
unittest.main = run
del sys.argv[0]
runpy.run_path(sys.argv[0], run_name='__main__')
