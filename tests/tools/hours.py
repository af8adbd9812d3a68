"""Seconds of an hour, a day and a week."""


HOUR, DAY, WEEK = 3600, 86_400, 604_800
