"""How tests/run reads cases and tries them."""
