#!/usr/bin/python3
"""Uses the page of web/ in a real browser, over a server that keeps journals, behind nginx as examples/nginx.conf has it. Each case is named by what it shows, and ends it with a line.

    web/tests/run.py [--program PATH] [--picture FILE] [CASE ..]

Skipped with a line where chromium, its driver, python3-selenium, nginx or openssl isn't here: all are packages of Debian."""

import argparse
import os
import shutil
import sys
import tempfile
import time
from datetime import date, timedelta

sys.dont_write_bytecode = True

import pages
from pages import Site, Window, browsing, until

ME = "web/tests/run.py"
SLOTS = "https://jmapd.example/slots"
HOUR = "PT1H"
# A week in which clocks of New York are set forward already, and those of Zurich not yet.
MONDAY = "2026-03-09"


def event(title, start, **members):
    return {"calendarIds": {"C1": True}, "title": title, "start": start, "duration": HOUR, "timeZone": "Europe/Zurich"} | members


def weekly(title, start, **members):
    return event(title, start, recurrenceRules=[{"@type": "RecurrenceRule", "frequency": "weekly"}], **members)


def rooms(site):
    """A calendar C1 and a room C2, which every case has."""
    room = {"name": "Room 1", "color": "#c05621", "timeZone": "Europe/Zurich", "resourceZone": "Europe/Zurich"}
    site.did(("Calendar/set", {"create": {"a": {"name": "Team", "color": "#2b6cb0"}}}), ("Calendar/set", {"create": {"b": room}}))


def a_wrong_token_is_told_and_a_right_one_stays_in_its_tab(site, browser):
    with Window(browser, site.address, "t-nobody") as window:
        until(lambda: "doesn't know this token" in window.status(), "a wrong token isn't told")
        assert not window.one("#page").is_displayed()
        window.one("#sign-in [name=token]").clear()
        window.sign_in("t-ann")
        until(lambda: window.one("#page").is_displayed(), "the page isn't shown")
        assert window.run("return Object.values(sessionStorage)") == ["t-ann"]
        assert window.run("return [localStorage.length, document.cookie]") == [0, ""]
    with Window(browser, site.address, None) as other:
        until(lambda: other.one("#sign-in").is_displayed(), "another tab is signed in")


def one_books_and_the_other_sees_it_and_a_clash_is_told(site, browser):
    ann, bob = Window(browser, site.address, "t-ann"), Window(browser, site.address, "t-bob")
    for window in (ann, bob):
        with window:
            window.go("week", MONDAY)
    with ann:
        ann.add(title="Board", start="2026-03-10T09:00", end="2026-03-10T10:00")
        ann.choose("place", "Room 1")
        ann.press("save")
        ann.is_closed()
        ann.sees("Board")
    with bob:
        bob.run("window.asked.length = 0")
        bob.sees("Board")
        names = [call for request in bob.run("return window.asked") for call in request["methodCalls"]]
        whole = [call for call in names if call[0].endswith("/get") and "ids" not in call[1] and "#ids" not in call[1]]
        assert not whole, whole
        assert all("uid" in call[1]["filter"] for call in names if call[0] == "CalendarEvent/query"), names
        assert any(call[0] == "CalendarEvent/changes" for call in names)
        bob.add(title="Visit", start="2026-03-10T09:30", end="2026-03-10T11:00")
        bob.choose("place", "Room 1")
        bob.press("save")
        told = bob.trouble()
        for part in ("Room 1", "Tuesday", "10 March 2026", "09:30:00", "Board", "ann"):
            assert part in told, told
        bob.fill(start="2026-03-10T10:00")
        bob.press("save")
        bob.is_closed()
    with ann:
        ann.sees("Visit")
    assert len(site.titled("Visit")) == 1


def a_series_without_end_is_there_in_the_year_2500(site, browser):
    site.made(it=weekly("Standup", "2026-03-11T09:15:00"))
    wednesday = date(2500, 1, 6)
    while wednesday.weekday() != 2:
        wednesday += timedelta(days=1)
    with Window(browser, site.address, "t-ann") as window:
        window.go("week", wednesday.isoformat())
        window.sees("Standup")
        cell = window.one(f"td[data-day='{wednesday.isoformat()}']")
        assert "09:15" in cell.text and "Standup" in cell.text, cell.text
        assert window.titles() == ["Standup"]
        window.go("month", wednesday.isoformat())
        until(lambda: len(window.titles()) >= 4, "the month has no four of them")


def what_others_wrote_is_text(site, browser):
    titles = ["<script>window.taken = 1</script>", "<img src=x onerror='window.taken = 1'>", "javascript:window.taken=1", "\u202egnp.exe & <b>bold</b>"]
    site.made(**{f"k{place}": event(title, f"{MONDAY}T{8 + place:02}:00:00", description=title) for place, title in enumerate(titles)})
    site.did(("Calendar/set", {"create": {"c": {"name": titles[1], "color": "red; background: url(//example.com)"}}}))
    with Window(browser, site.address, "t-ann") as window:
        window.go("week", MONDAY)
        for title in titles:
            window.sees(title)
        window.open(titles[1])
        assert window.one("#editor [name=description]").get_property("value") == titles[1]
        window.press("cancel")
        window.one("#search input").send_keys("window", window.keys.ENTER)
        until(lambda: len(window.texts("#found li")) == 3, "the search doesn't find the three")
        assert window.run("return [window.taken === undefined, document.querySelectorAll('img, b, script:not([src])').length]") == [True, 0]
        # What the page's policy keeps it from: a script in an element, and markup or a script that is put in as a text.
        window.run("const it = document.createElement('script'); it.append('window.taken = 2'); document.body.append(it)")
        for put_in in ("document.body.innerHTML = '<p>'", "document.createElement('script').textContent = 'window.taken = 3'"):
            assert window.run(f"try {{ {put_in} }} catch (error) {{ return error.name }}") == "TypeError", put_in
        assert window.run("return window.taken === undefined")
        until(lambda: window.run("return window.kept_off.includes('require-trusted-types-for')"), "the policy keeps no script off")


def the_page_goes_on_when_the_server_was_killed(site, browser):
    with Window(browser, site.address, "t-ann") as window:
        window.go("week", MONDAY)
        window.add(title="Kept", start=f"{MONDAY}T09:00", end=f"{MONDAY}T10:00")
        window.press("save")
        window.is_closed()
        window.sees("Kept")
        site.kill()
        until(lambda: "doesn't answer" in window.status(), "nobody is told that the server is away")
        window.add(title="Waiting", start=f"{MONDAY}T11:00", end=f"{MONDAY}T12:00")
        window.press("save")
        assert "no answer" in window.trouble()
        site.start()
        until(lambda: site.is_up(), "the server doesn't come back")
        window.press("save")
        window.is_closed()
        site.made(it=event("From another", f"{MONDAY}T14:00:00"))
        for title in ("Kept", "Waiting", "From another"):
            window.sees(title)
        assert len(site.titled("Waiting")) == 1
        until(lambda: "away" not in window.one("body").get_attribute("class"), "it says that the server is away")


# Loses the answer to the next set, which is made all the same.
LOSE = """
const asking = window.fetch;
window.fetch = async (address, options) => {
    const answer = await asking(address, options);
    if (!options.body?.includes("/set")) return answer;
    window.fetch = asking;
    throw new TypeError("lost");
};
"""


def an_answer_that_was_lost_makes_nothing_twice(site, browser):
    with Window(browser, site.address, "t-ann") as window:
        window.go("week", MONDAY)
        window.add(title="Once", start=f"{MONDAY}T09:00", end=f"{MONDAY}T10:00")
        window.run(LOSE)
        window.press("save")
        assert "no answer" in window.trouble()
        window.press("save")
        window.is_closed()
        window.sees("Once")
        assert len(site.titled("Once")) == 1


def a_server_with_older_data_is_read_anew(site, browser):
    site.made(it=event("Lost", f"{MONDAY}T09:00:00"))
    with Window(browser, site.address, "t-ann") as window:
        window.go("week", MONDAY)
        window.sees("Lost")
        site.kill()
        shutil.rmtree(site.folder / "journals")
        (site.folder / "journals").mkdir()
        site.start()
        until(lambda: window.titles() == [], "what was lost is still shown")
        rooms(site)
        site.made(it=event("New", f"{MONDAY}T10:00:00"))
        window.sees("New")


def a_month_of_more_than_one_answer_is_shown_whole(site, browser):
    daily = [{"@type": "RecurrenceRule", "frequency": "daily"}]
    site.made(**{f"k{number}": event(f"Daily {number}", "2026-02-01T09:00:00", recurrenceRules=daily) for number in range(15)})
    with Window(browser, site.address, "t-ann") as window:
        # The weeks of March 2026 have 42 days, and an answer has 500 objects at most.
        window.go("month", MONDAY)
        until(lambda: len(window.titles()) == 15 * 42, "not all are shown")
        window.go("week", MONDAY)
        until(lambda: len(window.titles()) == 15 * 7, "not all of the week are shown")
        # More changes at once than the page follows one by one.
        site.made(**{f"k{number}": event(f"Once {number}", f"{MONDAY}T12:00:00") for number in range(20)})
        until(lambda: len(window.titles()) == 15 * 7 + 20, "not all that came are shown")


def one_of_a_series_is_changed_or_all_of_it(site, browser):
    [key] = site.made(it=weekly("Review", f"{MONDAY}T15:00:00")).values()
    with Window(browser, site.address, "t-ann") as window:
        window.go("week", "2026-03-16")
        window.open("Review")
        window.pick("one")
        window.fill(title="Review with Chloé", start="2026-03-17T16:00", end="2026-03-17T17:30")
        window.press("save")
        window.is_closed()
        window.sees("Review with Chloé")
        [held] = site.titled("Review")
        changed = {"title": "Review with Chloé", "start": "2026-03-17T16:00:00", "duration": "PT1H30M"}
        assert held["recurrenceOverrides"] == {"2026-03-16T15:00:00": changed}, held
        window.go("week", "2026-03-23")
        window.open("Review")
        window.pick("one")
        window.press("remove")
        window.is_closed()
        until(lambda: "Review" not in window.titles(), "the removed one is still there")
        window.go("week", "2026-03-30")
        window.open("Review")
        window.pick("series")
        assert window.one("#editor [name=start]").get_property("value") == f"{MONDAY}T15:00"
        window.fill(start=f"{MONDAY}T14:00", end=f"{MONDAY}T15:00", interval="2")
        window.press("save")
        window.is_closed()
        until(lambda: site.titled("Review")[0]["start"] == f"{MONDAY}T14:00:00", "the series isn't moved")
        [held] = site.titled("Review")
        # The exceptions go with their occurrences.
        assert held["recurrenceOverrides"] == {"2026-03-16T14:00:00": changed, "2026-03-23T14:00:00": {"excluded": True}}, held
        assert held["recurrenceRules"][0]["interval"] == 2
        window.go("week", MONDAY)
        window.open("Review")
        window.pick("series")
        window.press("remove")
        window.is_closed()
        until(lambda: "Review" not in window.titles(), "the series is still there")
    assert site.did(("CalendarEvent/get", {"ids": [key]}))[0]["notFound"] == [key]


def times_are_put_on_the_clock_of_the_reader(site, browser):
    site.made(it=event("Call", f"{MONDAY}T09:00:00", timeZone="America/New_York"), other=event("Call later", "2026-03-30T09:00:00", timeZone="America/New_York"))
    with Window(browser, site.address, "t-ann") as window:
        # New York is at UTC-4 in both weeks; Zurich at UTC+1 in the first, and at UTC+2 in the second.
        window.go("week", MONDAY)
        assert "14:00" in window.told("Call"), window.told("Call")
        window.go("week", "2026-03-30")
        assert "15:00" in window.told("Call later")
        window.press_event("Call later", window.keys.ALT, window.keys.ARROW_DOWN)
        until(lambda: site.titled("Call later")[0]["start"] == "2026-03-30T09:15:00", "it isn't moved by the keyboard")


def an_event_is_dragged_to_another_day_and_hour(site, browser):
    site.made(it=event("Here", f"{MONDAY}T10:00:00"), series=weekly("Each week", "2026-03-11T10:00:00"))
    with Window(browser, site.address, "t-ann") as window:
        window.go("week", MONDAY)
        window.sees("Each week")
        window.run("document.getElementById('view').scrollTop = 350")
        day = window.run("return document.querySelector('td[data-day]').getBoundingClientRect().width")
        hour = window.run("return document.querySelector('.timed').getBoundingClientRect().height / 24")
        window.drag("Here", day, 2 * hour)
        until(lambda: site.titled("Here")[0]["start"] == "2026-03-10T12:00:00", "it isn't moved")
        assert not window.run("return document.getElementById('editor').open"), "the drag opens it"
        window.drag("Each week", 0, -hour / 4)
        moved = {"2026-03-11T10:00:00": {"start": "2026-03-11T09:45:00"}}
        until(lambda: site.titled("Each week")[0].get("recurrenceOverrides") == moved, "the one occurrence isn't moved")
        window.go("month", MONDAY)
        window.drag("Here", window.run("return document.querySelector('td[data-day]').getBoundingClientRect().width"), 0)
        until(lambda: site.titled("Here")[0]["start"] == "2026-03-11T12:00:00", "it isn't moved in the month")


def a_room_is_added_and_whole_days_are_booked(site, browser):
    with Window(browser, site.address, "t-ann") as window:
        window.go("month", MONDAY)
        window.one("#adding summary").click()
        for name, room in (("Holidays", False), ("Room 2", True)):
            window.one("#adding [name=name]").send_keys(name)
            if room:
                window.one("#adding [name=room]").click()
            window.one("#adding button").click()
            until(lambda: window.status() == f"Added {name}.", f"{name} isn't added")
        added = {it["name"]: it for it in site.did(("Calendar/get", {}))[0]["list"]}
        assert (added["Room 2"]["resourceZone"], added["Holidays"]["resourceZone"]) == ("Europe/Zurich", None)
        assert any("Room 2" in it for it in window.texts("#rooms li")) and any("Holidays" in it for it in window.texts("#calendars li"))
        window.add(title="Fair", start="2026-03-12T09:00", end="2026-03-13T10:00", isWhole=True)
        window.press("save")
        window.is_closed()
        [held] = site.titled("Fair")
        assert {name: held.get(name) for name in ("start", "duration", "showWithoutTime", "timeZone")} == {
            "start": "2026-03-12T00:00:00", "duration": "P2D", "showWithoutTime": True, "timeZone": None,
        }, held
        window.sees("Fair")
        assert [day for day in ("11", "12", "13", "14") if "Fair" in window.one(f"td[data-day='2026-03-{day}']").text] == ["12", "13"]
        window.add(title="Away", start="2026-03-17T09:00", end="2026-03-17T10:00")
        window.choose("place", "Room 2")
        window.fill(isWhole=True)
        window.press("save")
        window.is_closed()
        [held] = site.titled("Away")
        assert (held["timeZone"], held["start"], held["duration"]) == ("Europe/Zurich", "2026-03-17T00:00:00", "P1D"), held
        assert added["Room 2"]["id"] in held["calendarIds"]


def all_is_done_by_the_keyboard(site, browser):
    site.made(it=event("Here", f"{MONDAY}T10:00:00"))
    with Window(browser, site.address, "t-ann") as window:
        keys = window.keys
        window.go("week", MONDAY)
        window.sees("Here")

        def focus():
            return browser.switch_to.active_element

        # From the top by Tab to the days: one of them is in the order, and arrows go to the others.
        window.run("document.getElementById('date').focus()")
        for _ in range(40):
            focus().send_keys(keys.TAB)
            if "day" in (focus().get_attribute("class") or "").split():
                break
        focus().send_keys(keys.ARROW_RIGHT)
        until(lambda: "10 March 2026" in focus().get_attribute("aria-label"), "the arrow doesn't go to the next day")
        for _ in range(6):
            focus().send_keys(keys.ARROW_RIGHT)
        until(lambda: "16 March 2026" in focus().get_attribute("aria-label"), "arrows don't go to the next week")
        focus().send_keys(keys.ENTER)
        window.is_open()
        focus().send_keys("By hand", keys.ENTER)
        window.is_closed()
        until(lambda: site.titled("By hand"), "it isn't made")
        assert site.titled("By hand")[0]["start"] == "2026-03-16T09:00:00"
        window.press_event("By hand", keys.ALT, keys.ARROW_RIGHT)
        until(lambda: site.titled("By hand")[0]["start"] == "2026-03-17T09:00:00", "it isn't moved a day on")
        until(lambda: "By hand" in focus().text, "the focus is lost by the move")
        focus().send_keys(keys.ENTER)
        window.is_open()
        focus().send_keys(keys.ESCAPE)
        window.is_closed()


def everything_has_a_name_for_who_does_not_see_it(site, browser):
    site.made(it=weekly("Named", f"{MONDAY}T10:00:00"))
    with Window(browser, site.address, "t-ann") as window:
        window.go("week", MONDAY)
        window.open("Named")
        window.pick("series")
        nodes = browser.execute_cdp_cmd("Accessibility.getFullAXTree", {})["nodes"]
        told = [(it["role"]["value"], it.get("name", {}).get("value", "")) for it in nodes if not it.get("ignored")]
        asked = {"button", "textbox", "combobox", "checkbox", "radio", "searchbox", "dialog", "spinbutton", "columnheader", "table", "navigation"}
        assert not [role for role, name in told if role in asked and not name.strip()], told
        assert ("dialog", "Event") in told
        window.press("cancel")
        nodes = browser.execute_cdp_cmd("Accessibility.getFullAXTree", {})["nodes"]
        told = [(it["role"]["value"], it.get("name", {}).get("value", "")) for it in nodes if not it.get("ignored")]
        assert not [role for role, name in told if role in asked and not name.strip()], told
        [name] = [name for role, name in told if role == "button" and "Named" in name]
        for part in ("10:00", "to 11:00", "Team", "repeats"):
            assert part in name, name
        assert any(role == "button" and "9 March 2026" in name for role, name in told)


def a_search_follows_what_others_change(site, browser):
    ids = site.made(one=event("Budget 1", f"{MONDAY}T10:00:00"), two=event("Budget 2", "2027-05-03T10:00:00"))
    with Window(browser, site.address, "t-ann") as window:
        window.one("#search input").send_keys("budget", window.keys.ENTER)
        until(lambda: len(window.texts("#found li")) == 2, "the search doesn't find both")
        window.run("window.asked.length = 0")
        site.made(it=event("Budget 0", "2026-01-05T10:00:00"))
        site.did(("CalendarEvent/set", {"destroy": [ids["one"]]}))
        until(lambda: [it.split(": ")[1] for it in window.texts("#found li")] == ["Budget 0", "Budget 2"], "the search isn't followed")
        calls = [call[0] for request in window.run("return window.asked") for call in request["methodCalls"]]
        assert "CalendarEvent/queryChanges" in calls
        window.all("#found li button")[1].click()
        window.sees("Budget 2")


def the_next_free_time_is_offered_where_the_server_finds_it(site, browser):
    site.made(it=weekly("Board", f"{MONDAY}T09:00:00", calendarIds={"C2": True}))
    with Window(browser, site.address, "t-ann") as window:
        window.go("week", MONDAY)
        window.add(title="Visit", start="2026-03-16T08:30", end="2026-03-16T09:30")
        assert not window.one("#editor [name=slot]").is_displayed()
        window.choose("place", "Room 1")
        if SLOTS not in site.session()["capabilities"]:
            assert not window.one("#editor [name=slot]").is_displayed()
            return
        # The hour from 9 is taken each Monday, so an hour has room from 10 on.
        window.press("slot")
        assert "Room 1 is free" in window.trouble(), window.trouble()
        assert window.one("#editor [name=start]").get_property("value") == "2026-03-16T10:00"
        assert window.one("#editor [name=end]").get_property("value") == "2026-03-16T11:00"
        window.press("save")
        window.is_closed()
        assert site.titled("Visit")[0]["start"] == "2026-03-16T10:00:00"


# A stream of events in the place of the server's, which the case writes into.
STREAM = """
const asking = window.fetch;
window.streams = [];
window.fetch = (address, options) => {
    if (!String(address).includes("/events")) return asking(address, options);
    const stream = new TransformStream(), writer = stream.writable.getWriter();
    window.streams.push({ address, options, writer });
    return Promise.resolve(new Response(stream.readable, { headers: { "Content-Type": "text/event-stream" } }));
};
window.tell = (text) => window.streams.at(-1).writer.write(new TextEncoder().encode(text));
"""


def a_stream_of_events_is_followed(site, browser):
    with Window(browser, site.address, None) as window:
        window.run(STREAM)
        window.sign_in("t-ann")
        window.go("week", MONDAY)
        until(lambda: window.run("return window.streams.length"), "the stream isn't asked for")
        assert "types=Calendar%2CCalendarEvent" in window.run("return window.streams[0].address")
        assert window.run("return window.streams[0].options.headers.Authorization") == "Bearer t-ann"
        time.sleep(2)
        window.run("window.asked.length = 0")
        site.made(it=event("Told", f"{MONDAY}T10:00:00"))
        # Longer than the page waits where it has to ask.
        time.sleep(5)
        assert window.run("return window.asked.length") == 0 and "Told" not in window.titles()
        # An event comes in pieces, among others (RFC 8620 section 7.3).
        window.run("tell(': hello\\n\\nevent: ping\\ndata: {\"interval\": 60}\\n\\nevent: sta')")
        window.run("tell('te\\ndata: {\"@type\": \"StateChange\", \"changed\": {\"A1\": {\"CalendarEvent\": \"0-1\"}}}\\r')")
        window.run("tell('\\n\\r\\n')")
        window.sees("Told")
        window.run("window.streams[0].writer.close()")
        site.made(it=event("After it", f"{MONDAY}T12:00:00"))
        window.sees("After it")
        until(lambda: window.run("return window.streams.length") > 1, "the stream isn't asked for again")


def who_may_read_alone_changes_nothing(site, browser):
    site.made(it=event("To be read", f"{MONDAY}T10:00:00"))
    with Window(browser, site.address, "t-eve") as window:
        window.go("week", MONDAY)
        assert not window.one("[data-act=new]").is_displayed()
        window.open("To be read")
        assert not window.one("#editor [name=save]").is_enabled() and not window.one("#editor [name=remove]").is_enabled()


def picture(site, browser, name):
    """Takes the picture of README."""
    site.made(
        a=weekly("Standup", f"{MONDAY}T09:00:00", duration="PT15M"),
        b=event("Planning", f"{MONDAY}T10:00:00", duration="PT2H"),
        c=weekly("Board", "2026-03-10T09:30:00", calendarIds={"C2": True}, duration="PT1H30M"),
        d=event("Interview", "2026-03-10T10:00:00"),
        e=event("Call with New York", "2026-03-11T09:00:00", timeZone="America/New_York"),
        f=event("Training", "2026-03-12T13:00:00", calendarIds={"C1": True, "C2": True}, duration="PT3H", status="tentative"),
        g={"calendarIds": {"C1": True}, "title": "Fair", "start": "2026-03-12T00:00:00", "duration": "P2D", "showWithoutTime": True},
        h=event("Lunch", "2026-03-13T12:00:00", freeBusyStatus="free"),
    )
    with Window(browser, site.address, "t-ann") as window:
        window.go("week", MONDAY)
        window.sees("Lunch")
        window.run("document.getElementById('view').scrollTop = 300")
        time.sleep(1)
        browser.save_screenshot(name)


CASES = [
    a_wrong_token_is_told_and_a_right_one_stays_in_its_tab,
    one_books_and_the_other_sees_it_and_a_clash_is_told,
    a_series_without_end_is_there_in_the_year_2500,
    what_others_wrote_is_text,
    the_page_goes_on_when_the_server_was_killed,
    an_answer_that_was_lost_makes_nothing_twice,
    a_server_with_older_data_is_read_anew,
    a_month_of_more_than_one_answer_is_shown_whole,
    one_of_a_series_is_changed_or_all_of_it,
    times_are_put_on_the_clock_of_the_reader,
    an_event_is_dragged_to_another_day_and_hour,
    a_room_is_added_and_whole_days_are_booked,
    all_is_done_by_the_keyboard,
    everything_has_a_name_for_who_does_not_see_it,
    a_search_follows_what_others_change,
    the_next_free_time_is_offered_where_the_server_finds_it,
    a_stream_of_events_is_followed,
    who_may_read_alone_changes_nothing,
]


def tried(case, program, browser):
    """Tries a case over a server of its own."""
    with tempfile.TemporaryDirectory() as folder, Site(program, folder).serving() as site:
        rooms(site)
        case(site, browser)
    for handle in browser.window_handles[1:]:
        browser.switch_to.window(handle)
        browser.close()
    browser.switch_to.window(browser.window_handles[0])


def main():
    words = argparse.ArgumentParser()
    words.add_argument("--program", default=os.path.join(pages.TOP, "crates/jmapd/out/jmapd"))
    words.add_argument("--picture")
    words.add_argument("cases", nargs="*")
    words = words.parse_args()
    lacking = pages.missing()
    if lacking:
        print(f"{ME}: skipped, since {lacking} isn't here")
        return
    with browsing() as browser:
        if words.picture:
            tried(lambda site, browser: picture(site, browser, words.picture), words.program, browser)
            return
        for case in CASES:
            if not words.cases or case.__name__ in words.cases:
                begun = time.monotonic()
                tried(case, words.program, browser)
                print(f"{ME}: {case.__name__.replace('_', ' ')} ({time.monotonic() - begun:.0f} s)", flush=True)


if __name__ == "__main__":
    sys.exit(main())
