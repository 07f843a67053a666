"""What the parser of prometheus_client (Debian's package python3-prometheus-client) says of a text of OpenMetrics."""

# What the parser says, and the rule of OpenMetrics 1.0 that the page breaks by our reading, not yet compared with
# the wording of the standard. None is a rule of the bridge.
RULES = {
    "Quantile values cannot be negative": "Summary: quantile values must not be negative",
    "Invalid quantile label": "Summary: quantiles must be between 0 and 1",
    "Counter-like samples cannot be negative": "Histogram, Summary: a sum must not be negative",
    "Counter-like samples cannot be NaN": "Histogram, GaugeHistogram, Summary: a sum must not be NaN",
    "Cannot have _sum with negative buckets": "Histogram: with negative thresholds there must be no sum",
    "Cannot have negative _gsum": "GaugeHistogram: only with negative thresholds may a sum be negative",
    "Clashing name": "MetricFamily: sample names of different families must not clash",
}


def refusal(text: bytes) -> str:
    """What the parser says against a text, or nothing."""
    from prometheus_client.openmetrics.parser import text_string_to_metric_families

    try:
        for _ in text_string_to_metric_families(text.decode()):
            pass
    except Exception as error:  # the parser raises ValueError and others
        return f"{type(error).__name__}: {error}"
    return ""


def rule_of(said: str) -> str:
    """The rule of OpenMetrics that the parser names, or nothing."""
    return next((rule for words, rule in RULES.items() if words in said), "")
