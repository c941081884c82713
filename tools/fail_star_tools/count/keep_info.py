"""Shows the case of a campaign file, its map, limit and flags, and how many jobs it keeps, in all and by outcome.

It needs nothing but the file. Jobs are counted once each, without their weights: `fail_star report` counts the sites
that they represent. An older version wrote traps without their kind. Such a row gives its job no outcome, so the job
runs again; if there are any, their number has a line of its own. A flag, `--pc` or `--ram-code`, has a line if the
campaign has it. The line `card` has the SHA-256 of the file's card, which is the same for each campaign of the same
code, data, map, limit and flags. The last line has the options that continue the campaign. With --image there is a
line with the SHA-256 of the image, and the error output warns if the image was linked for another size of RAM.
"""

from __future__ import annotations

import argparse

from fail_star_tools.command_line import Parser
from fail_star_tools.count.json_text import json_key, json_line
from fail_star_tools.read import campaign_file, elf_image, linked_ram
from fail_star_tools.read.campaign_file import OLD_TRAP, OUTCOMES, CampaignFile, Refusal
from fail_star_tools.read.digest import sha256_of
from fail_star_tools.words import say


def lines_of(campaign: CampaignFile, image: str | None) -> list[str]:
    """The lines about a file and the image that is named, each with a word and its value."""
    card, kept = campaign.card, campaign.kept()
    return [
        f"entry {card.entry:#010x}",
        f"rom {card.rom}",
        f"ram {card.ram}",
        f"limit {card.limit}",
        *(f"{flag.removeprefix('--')} yes" for flag in card.flags()),
        f"batches {len(campaign.batches)}",
        f"jobs {sum(kept[outcome] for outcome in OUTCOMES)}",
        *(f"{outcome} {count}" for outcome, count in kept.items() if outcome != OLD_TRAP or count),
        f"card {card.sha256()}",
        *([f"image {sha256_of(image)}"] if image is not None else []),
        f"options {' '.join(card.options())}",
    ]


def object_of(campaign: CampaignFile, image: str | None) -> str:
    """The same as one line of JSON."""
    card, kept = campaign.card, campaign.kept()
    case = {"entry": f"{card.entry:#010x}", "rom": str(card.rom), "ram": str(card.ram), "limit": card.limit, "flags": card.flags()}
    counts = {json_key(outcome): count for outcome, count in kept.items() if outcome != OLD_TRAP or count}
    found: dict[str, object] = {**case, **counts, "batches": len(campaign.batches), "options": card.options()}
    found["jobs"] = sum(kept[outcome] for outcome in OUTCOMES)
    found["card"] = {"sha256": card.sha256()}
    found["image"] = None if image is None else {"file": image, "sha256": sha256_of(image)}
    return json_line(found)


def answer(line: argparse.Namespace) -> str:
    """The whole output."""
    campaign = campaign_file.read(line.keep)
    if line.image is not None:
        image = elf_image.read(line.image)
        if not image.loads_as(campaign.card):
            raise Refusal(f"{line.image}: {line.keep} is a campaign of another image")
        linked_ram.warn("keep_info", image, campaign.card.ram)
    try:
        if line.format == "json":
            return object_of(campaign, line.image)
        return "".join(f"{each}\n" for each in lines_of(campaign, line.image))
    except Refusal as refusal:
        raise Refusal(f"{line.keep}: {refusal}") from None


def main(words: list[str]) -> int:
    """The exit status: 0 if all was written, 1 if it was not, and 2 (argparse's) for invalid words."""
    parser = Parser("keep_info", "Shows the case of a campaign file, and how many jobs it keeps.")
    parser.add_argument("keep", metavar="KEEP", help="the campaign file")
    about = "the program's ELF file: shows its SHA-256, and warns if it was linked for another RAM"
    parser.add_argument("--image", metavar="IMAGE", help=about)
    parser.add_argument("--format", choices=("text", "json"), default="text", help="lines, or one line of JSON (default: text)")
    line = parser.parse_args(words)
    return say("keep_info", lambda: answer(line))
