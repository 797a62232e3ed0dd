"""The calls and results that users import from nushbaret."""
