"""The blocks of docs/OPERATING.md that replace a device, word for word; and those of release 0.2.0, which lost answered
actions."""
import os
import re
from dataclasses import dataclass

from lib import program as common

PAGE = os.path.join(common.TESTS, "..", "docs", "OPERATING.md")


def block_of(text, heading, word):
    """The last block of a section that has this word."""
    section = re.search(rf"(?ms)^## {re.escape(heading)}\n(.*?)(?=^## |\Z)", text)
    found = [block for block in re.findall(r"(?ms)^```sh\n(.*?)^```", section[1]) if word in block] if section else []
    common.check(found, "docs/OPERATING.md has no block with", word, "under", heading)
    return found[-1]


@dataclass(frozen=True)
class Blocks:
    """The blocks that restore a device, change its table, and go back to an earlier version."""

    restore: str
    change: str
    way_back: str

    @staticmethod
    def of_page():
        with open(PAGE, encoding="utf-8") as file:
            text = file.read()
        restore = block_of(text, "Back up and restore", "restored.device")
        change = block_of(text, "Change the table", "export plant.device") + block_of(
            text, "Change the table", "alm_change_table"
        )
        return Blocks(restore, change, block_of(text, "Upgrade", "replaced.device"))

    @staticmethod
    def earlier():
        return Blocks(EARLIER_RESTORE, EARLIER_CHANGE, "")


def versions(block):
    """The versions whose folders below /opt a block names."""
    return sorted(set(re.findall(r"/opt/alarms-(\d[\d.]*\d|\$V)", block)))


EARLIER_RESTORE = """
cd /var/lib/alarms
cp --sparse=never /backup/plant.device restored.device
chown alarms: restored.device
sync restored.device
systemctl stop alm_server
mv plant.device replaced.device
mv restored.device plant.device
systemctl start alm_server
"""

EARLIER_CHANGE = """
systemctl stop alm_server
cd /var/lib/alarms
runuser -u alarms -- /opt/alarms-0.2.0/alm_server export plant.device > /etc/alarms/new.toml
runuser -u alarms -- bash -eu <<'END' && mv /etc/alarms/new.toml /etc/alarms/plant.toml
A=/opt/alarms-0.2.0
$A/alm_server format new.device /etc/alarms/new.toml
$A/examples/change_table.py plant.device /etc/alarms/new.toml --program $A/alm_server > lines
$A/alm_server desk new.device < lines > replies
if grep -v ' OK ' replies; then exit 1; fi
$A/alm_server show new.device > shown
mv plant.device old.device
mv new.device plant.device
END
systemctl start alm_server
"""
