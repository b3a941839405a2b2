"""How many words an event and an error have. That of an error is the one that src/numbers.rs names."""
import os
import re

EVENT_WORDS = 4
with open(os.path.dirname(os.path.abspath(__file__)) + '/src/numbers.rs', encoding='utf-8') as file:
    ERROR_WORDS = int(re.search(r'pub const ERROR_WORDS: usize = (\d+);', file.read())[1])
