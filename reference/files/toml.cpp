// Tables, keys and values of TOML.
#include "files/toml.h"

#include "base/text.h"
#include "files/toml_source.h"

namespace {

constexpr int most_depth = 80;

using Key = std::vector<std::string>;

class TomlReader {
public:
    explicit TomlReader(const std::string& bytes) : source_(bytes) {}

    TomlValue read() {
        if (source_.has("\xEF\xBB\xBF")) source_.skip(3);
        TomlValue root, *table = &root;
        for (;;) {
            source_.skip_space();
            if (source_.is_at_end()) return root;
            if (source_.peek() == '[')
                table = read_header(root);
            else
                read_entry(*table, 0);
            source_.skip_blanks();
            source_.skip_comment();
            if (!source_.is_at_end() && !source_.skip_newline()) throw NotToml();
        }
    }

private:
    TomlSource source_;

    Key read_key() {
        Key key{read_toml_key_part(source_)};
        for (;;) {
            source_.skip_blanks();
            if (!source_.skip_if('.')) return key;
            source_.skip_blanks();
            key.push_back(read_toml_key_part(source_));
        }
    }

    // `[KEY]` and `[[KEY]]`: the table to which the entries behind it belong.
    TomlValue* read_header(TomlValue& root) {
        source_.expect('[');
        bool is_item = source_.skip_if('[');
        source_.skip_blanks();
        Key key = read_key();
        source_.expect(']');
        if (is_item) source_.expect(']');
        TomlValue* table = &root;
        for (size_t k = 0; k + 1 < key.size(); k++)
            table = table_for_header(*table, key[k]);
        return is_item ? new_item(*table, key.back()) : own_table(*table, key.back());
    }

    static TomlValue* table_for_header(TomlValue& table, const std::string& name) {
        TomlValue& value = table.entries[name];
        if (value.is_closed) throw NotToml();
        if (value.kind == TomlValue::Kind::Array) return &value.items.back();
        if (!value.is_table()) throw NotToml();
        return &value;
    }

    static TomlValue* new_item(TomlValue& table, const std::string& name) {
        bool is_new = table.entries.count(name) == 0;
        TomlValue& array = table.entries[name];
        if (is_new) array.kind = TomlValue::Kind::Array;
        if (array.kind != TomlValue::Kind::Array || array.is_closed) throw NotToml();
        array.items.emplace_back();
        array.items.back().has_header = true;
        return &array.items.back();
    }

    static TomlValue* own_table(TomlValue& table, const std::string& name) {
        TomlValue& value = table.entries[name];
        if (!value.is_table() || value.is_closed || value.has_header || value.is_dotted)
            throw NotToml();
        value.has_header = true;
        return &value;
    }

    // `KEY = VALUE`
    void read_entry(TomlValue& table, int depth) {
        Key key = read_key();
        source_.expect('=');
        source_.skip_blanks();
        TomlValue value = read_value(depth);
        TomlValue* inner = &table;
        for (size_t k = 0; k + 1 < key.size(); k++)
            inner = dotted_table(*inner, key[k]);
        if (!inner->entries.emplace(key.back(), value).second) throw NotToml();
    }

    static TomlValue* dotted_table(TomlValue& table, const std::string& name) {
        TomlValue& value = table.entries[name];
        if (!value.is_table() || value.is_closed || value.has_header) throw NotToml();
        value.is_dotted = true;
        return &value;
    }

    TomlValue read_value(int depth) {
        if (depth > most_depth) throw NotToml();
        switch (source_.peek()) {
            case '"':
            case '\'': {
                TomlValue value;
                value.kind = TomlValue::Kind::Text;
                value.text = read_toml_string(source_);
                return value;
            }
            case '[': return read_array(depth);
            case '{': return read_inline_table(depth);
        }
        for (const char* word : {"true", "false"}) {
            size_t length = std::string(word).size();
            if (!source_.has(word) || is_bare(source_.peek(length))) continue;
            source_.skip(length);
            TomlValue value;
            value.kind = TomlValue::Kind::Boolean;
            return value;
        }
        return read_toml_number(source_);
    }

    TomlValue read_array(int depth) {
        TomlValue array;
        array.kind = TomlValue::Kind::Array;
        array.is_closed = true;
        source_.expect('[');
        for (;;) {
            source_.skip_space();
            if (source_.skip_if(']')) return array;
            array.items.push_back(read_value(depth + 1));
            source_.skip_space();
            if (source_.skip_if(',')) continue;
            source_.expect(']');
            return array;
        }
    }

    TomlValue read_inline_table(int depth) {
        TomlValue table;
        source_.expect('{');
        for (;;) {
            source_.skip_space();
            if (source_.skip_if('}')) break;
            read_entry(table, depth + 1);
            source_.skip_space();
            if (source_.skip_if(',')) continue;
            source_.expect('}');
            break;
        }
        close(table);
        return table;
    }

    static void close(TomlValue& table) {
        table.is_closed = true;
        for (auto& [name, value] : table.entries)
            if (value.is_table()) close(value);
    }
};

}  // namespace

TomlValue read_toml(const std::string& bytes) {
    if (!is_utf8(bytes)) throw NotToml();
    return TomlReader(bytes).read();
}
