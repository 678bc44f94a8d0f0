"""One way to say how a test ended: 'ok TOPIC: NAME' or 'FAILED TOPIC: NAME: why', which tests/run counts."""


class Report:
    def __init__(self, topic):
        self.topic, self.failed = topic, False

    def say(self, name, fault=None, note=''):
        """fault: why the test failed, or nothing where it passed (an empty list of faults is nothing)"""
        if fault:
            self.failed = True
            print(f'FAILED {self.topic}: {name}: {fault}', flush=True)
        else:
            print(f'ok {self.topic}: {name}{note}', flush=True)

    def equal(self, name, got, expected, note=''):
        self.say(name, None if got == expected else f'{got}, expected {expected}', note)

    def none(self, name, wrong, note=''):
        """no case of a list may be wrong"""
        self.say(name, f'{len(wrong)} of them, the first: {wrong[0]}' if wrong else None, note)
