"""Tools of the alarm server: modules for its lines and its device's bytes, and a module for each command alm_NAME."""
