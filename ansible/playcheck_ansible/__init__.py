# SPDX-License-Identifier: MIT OR Apache-2.0
"""The front end for Ansible's own files: reads YAML, prints the JSON that playcheck judges, maps its answer back."""

__version__ = "0.3.0"
