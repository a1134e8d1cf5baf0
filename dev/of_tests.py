"""Which crates are tests, or what tests and soaks have in common: counts of the product's own sources leave them out."""
import re

OF_TESTS = re.compile(r"_tests$|^meet_shop$|^soak$")
