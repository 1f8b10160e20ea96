"""Defines a test of the alerts in service/alerts.yml: values of metrics over half an hour, and what
Prometheus has to say then. promtool plays it.

Of two routers, `good` has no fault and `bad` has each of them after the eighth minute.
"""

from __future__ import annotations

import json
import re

QUEUE = {"element": "q", "class": "Queue"}
DROPS, LENGTH, CAPACITY = ({**QUEUE, "handler": it} for it in ("drops", "length", "capacity"))
LINK = {"device": "a"}
# For each metric its labels, and its values at the two routers. In the notation of promtool, `1x8`
# is 1 and eight times 1 more, and `0+5x9` is 0, 5, .. 45.
SERIES = (
    ("up", {}, "1x40", "1x8 0x30"),
    ("click_sessions", {}, "3x40", "1x8 4x30"),
    ("click_session_slots", {}, "4x40", "4x40"),
    ("click_handler_total", DROPS, "7x40", "7x8 8+1x30"),
    ("click_handler", LENGTH, "800x40", "0x8 950x30"),
    ("click_handler", CAPACITY, "1000x40", "1000x40"),
    ("click_overruns_total", {}, "2x40", "2x8 3+1x30"),
    ("click_link_no_room_total", LINK, "5x40", "5x8 6+1x30"),
    ("click_link_no_memory_total", LINK, "0x40", "0x40"),
    ("click_link_failed_total", LINK, "1x40", "1x40"),
    ("click_link_strangers_total", LINK, "2x40", "2x8 3+1x30"),
    ("click_link_too_long_total", LINK, "0x40", "0x40"),
    ("click_link_received_total", LINK, "0+9x40", "0+9x8 72x30"),
    # Another link has been idle since the start, which is no fault.
    ("click_link_received_total", {"device": "b"}, "0x40", "0x40"),
    ("process_start_time_seconds", {}, "1000x40", "1000x8 1500x30"),
    ("process_resident_memory_bytes", {}, "5000000x40", "5000000x8 2000000000x30"),
)
# The labels of each alert, besides those of the router, and its text.
ALERTS = {
    "ClickDown": ({}, "the router does not answer"),
    "ClickSessionsFull": ({}, "all session slots are in use"),
    "ClickDrops": (DROPS, "a queue drops packets"),
    "ClickQueueFull": (QUEUE, "a queue is nearly full"),
    "ClickOverruns": ({}, "packets have no crossing left"),
    "ClickLinkLoses": (LINK, "a link loses packets"),
    "ClickLinkStrangers": (LINK, "a link gets datagrams that it does not take"),
    "ClickLinkSilent": (LINK, "a link that received packets receives none"),
    "ClickRestarted": ({}, "the router has started again"),
    "ClickMemory": ({}, "the router has more memory than its queues need"),
}


def labels_of(instance: str) -> dict[str, str]:
    return {"job": "click", "instance": instance}


def series_of(name: str, labels: dict[str, str], instance: str, values: str) -> dict[str, str]:
    return {"series": f"{name}{{{', '.join(f'{key}={value!r}' for key, value in {**labels_of(instance), **labels}.items())}}}", "values": values}


def test_of(rules: str) -> str:
    """Returns a test of promtool for the alerts in the file `rules`."""
    given = [series_of(name, labels, instance, values) for name, labels, *both in SERIES for instance, values in zip(("good", "bad"), both)]
    expected = []
    for name, (labels, summary) in ALERTS.items():
        alert = {"exp_labels": {**labels_of("bad"), **labels}, "exp_annotations": {"summary": summary}}
        expected += [{"eval_time": "8m", "alertname": name, "exp_alerts": []}, {"eval_time": "25m", "alertname": name, "exp_alerts": [alert]}]
    return json.dumps({"rule_files": [rules], "evaluation_interval": "1m", "tests": [{"interval": "1m", "input_series": given, "alert_rule_test": expected}]})


def metrics_of(rules: str) -> set[str]:
    """Returns the names of the router's metrics that the alerts have."""
    return set(re.findall(r"\b(?:click|process)_\w+", rules))
