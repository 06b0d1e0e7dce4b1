// Makes each call of the C library from C++, where bytes stand in vectors and what is said in strings, too. The status is
// 0 where each answers what it should, and else the number of the first that doesn't.
#include "calls.h"
#include <algorithm>
#include <string>
#include <vector>

namespace {

struct work works;

std::string action_name(uint32_t code)
{
	char name[KMAP_NAME_SIZE];

	return kmap_action_name(code, name, sizeof name) == KMAP_OK ? name : std::string();
}

bool are_held()
{
	const std::vector<uint8_t> none, tables(works.made.bytes, works.made.bytes + KMAP_TABLES_SIZE);
	std::vector<uint8_t> printed(works.size);
	const std::vector<uint16_t> events = { KMAP_PRESS(30), kmap_release(30) };
	std::vector<uint32_t> answers(events.size());
	kmap_tables same = {};
	kmap_fault fault = {};
	size_t size = 0;

	kmap_from_kbio(tables.data(), tables.data() + 9220, &same);
	return std::equal(tables.begin(), tables.end(), same.bytes)
	    && kmap_check(none.data(), none.size(), &fault) == KMAP_FAULTY && fault.kind == KMAP_SHORT
	    && kmap_print_text(tables.data(), tables.size(), printed.data(), printed.size(), &size) == KMAP_OK
	    && size == printed.size()
	    && kmap_deliver(tables.data(), tables.size(), tables.data(), tables.size(), &works.console, events.data(),
	    events.size(), answers.data(), answers.size()) == KMAP_OK && answers[0] == 'a' && action_name(8) == "btab";
}

}

int main()
{
	int wrong = wrong_call(&works);

	return wrong != 0 ? wrong : are_held() ? 0 : 99;
}
