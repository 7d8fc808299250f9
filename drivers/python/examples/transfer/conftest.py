pytest_plugins = ["nigbaru.pytest_plugin"]
