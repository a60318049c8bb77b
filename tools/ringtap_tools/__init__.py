"""The tools around ringtap. Each command of tools/ is the `main` of the module of its name."""
