# SPDX-License-Identifier: MIT OR Apache-2.0
# Random books judged by the front end and run by real Ansible with scripted answers.
