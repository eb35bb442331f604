"""Tests of the package over the library, which YAML_C_SO names: python3 -m unittest discover -s tests -t . (here: in bindings/python)."""
