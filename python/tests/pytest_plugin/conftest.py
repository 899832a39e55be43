"""The tests of the plugin run pytest on files that they write."""

pytest_plugins = ["pytester", "scanvolt.pytest_plugin"]
