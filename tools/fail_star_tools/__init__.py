"""Tools for campaigns of fail_star. For scripts: `read_campaign` gives a campaign as a table of jobs."""

from fail_star_tools.count.table import JobRow, JobTable, read_campaign
from fail_star_tools.read.campaign_file import Refusal

__all__ = ["JobRow", "JobTable", "Refusal", "read_campaign"]
