"""Amounts in cents, and as dollars with two decimals."""


def cents(text):
    """Cents of dollars with two decimals."""
    return int(text.replace(".", ""))


def money(amount):
    """Dollars with two decimals of cents."""
    return f"{'-' if amount < 0 else ''}{abs(amount) // 100}.{abs(amount) % 100:02}"
