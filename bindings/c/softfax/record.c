#include "record.h"
#include "carriers.h"
#include "identity.h"
#include "told.h"
#include <stddef.h>

/* A text as JSON: file names may have any octets, and those that aren't printable ASCII are written as if each were a character. */
static void put_text(const char *name, const char *text)
{
    told_add(",\"%s\":\"", name);
    for (; *text != 0; text++) {
        unsigned char is = (unsigned char)*text;
        if (is < ' ' || is > '~' || is == '"' || is == '\\') told_add("\\u%04x", is);
        else told_add("%c", is);
    }
    told_add("\"");
}

static void put_text_or_null(const char *name, const char *text)
{
    if (text != NULL) put_text(name, text);
    else told_add(",\"%s\":null", name);
}

static void put_count(const char *name, uint64_t count)
{
    told_add(",\"%s\":%llu", name, (unsigned long long)count);
}

/* The members that say which call it is. */
static void put_call(const record_call *it, char first)
{
    if (it->call > 0) told_add("%c\"call\":%llu", first, (unsigned long long)it->call);
    if (it->number[0] != 0) put_text("number", it->number);
    if (it->name[0] != 0) put_text("name", it->name);
}

void record_call_json(const record_call *it)
{
    if (it->call == 0) return;
    put_call(it, '{');
    told_add("}");
    told_end();
}

void record_call_words(const record_call *it)
{
    if (it->call == 0) return;
    told_add("softfax: call %llu", (unsigned long long)it->call);
    if (it->number[0] != 0) told_add(" from %s", it->number);
    if (it->name[0] != 0) told_add(" (%s)", it->name);
    told_end();
}

void record_page_json(const record_page *it)
{
    told_add("{\"%s\":%llu", it->what, (unsigned long long)it->number);
    put_text("file", it->file);
    if (it->image > 0) told_add(",\"image\":%u", it->image);
    told_add(",\"width\":%u,\"height\":%u,\"lines\":\"%s\"", it->width, it->height, it->fine ? "fine" : "standard");
    if (it->square) told_add(",\"square\":true");
    char peer[IDENTITY_MOST + 1];
    identity_read(it->figures, peer);
    if (peer[0] != 0) put_text("peer", peer);
    told_add("}");
    told_end();
}

void record_end_json(const record_end *it)
{
    const g3_figures *are = it->figures;
    char peer[IDENTITY_MOST + 1];
    identity_read(are, peer);
    told_add("{\"end\":\"%s\",\"%s\":%llu", it->end, it->what, (unsigned long long)it->pages);
    put_count("blocks", are->blocks);
    put_count("failed_checks", are->failed_checks);
    put_text_or_null("first_speed", carrier_name(are->first_speed));
    put_text_or_null("last_speed", carrier_name(are->last_speed));
    put_text_or_null("peer", peer[0] != 0 ? peer : NULL);
    put_count("pprs", are->pprs);
    put_count("resent", are->resent);
    put_count("retries", are->retries);
    put_count("seconds", it->seconds);
    put_text_or_null("why", it->why);
    put_call(&it->of, ',');
    if (it->folder[0] != 0) put_text("folder", it->folder);
    told_add("}");
    told_end();
}

static void put_figures(const g3_figures *are)
{
    told_add("blocks %llu, PPRs %llu, frames sent again %llu, failed checks %llu, retries %llu", (unsigned long long)are->blocks,
        (unsigned long long)are->pprs, (unsigned long long)are->resent, (unsigned long long)are->failed_checks,
        (unsigned long long)are->retries);
    char peer[IDENTITY_MOST + 1];
    identity_read(are, peer);
    if (are->first_speed != 0) told_add("; %s to %s", carrier_name(are->first_speed), carrier_name(are->last_speed));
    if (peer[0] != 0) told_add("; peer %s", peer);
}

void record_end_words(const record_end *it)
{
    if (it->why != NULL) told_add("softfax: %s\n", it->why);
    told_add("%llu s; ", (unsigned long long)it->seconds);
    put_figures(it->figures);
    told_add("\nend %s %s %llu", it->end, it->what, (unsigned long long)it->pages);
    if (it->folder[0] != 0) told_add(" in %s", it->folder);
    told_end();
}
