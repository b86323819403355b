"""The qlog of a netlog of Chromium, and logs that are compressed."""
