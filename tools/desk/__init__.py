"""The desk's tool: sheet -> records -> proved program -> listing -> report.

No part of this is proved. It stands in front of and behind the proved program, and checks itself against it.
"""
