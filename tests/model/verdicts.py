"""What `rv audit` has to say of a text of account lines."""
from tests.model.audit import RULES, audit
from tests.model.lines import BadLine, read_account
from tests.model.tables import table_audit

KINDS = ("legal", "bad line", *RULES)
# Of longer accounts the tables alone are asked: the plain audit's cost grows faster than the entries.
MOST_PLAIN = 120


class Unsure(Exception):
    """The model's two audits differ."""


def verdict(text):
    """What `rv audit` has to say of a text."""
    try:
        account = read_account(text)
    except BadLine as bad:
        return f"bad line {bad.args[0]}"
    fault = table_audit(account)
    if len(account.entries) <= MOST_PLAIN and audit(account) != fault:
        raise Unsure(f"the plain audit says {audit(account)}, and the one with tables {fault}")
    return "fault {} {}".format(*fault) if fault else "legal"


def kind_of(said):
    """The rule that is broken, or `legal` or `bad line`."""
    return said.split()[-1] if said.startswith("fault") else said.rstrip(" 0123456789")
