// An audit inside a gtest, in C++17. A test fails at the first violation of RFC 9002, with the
// reason, and the trace of what the sender did is in a file.
#ifndef AUDIT_H
#define AUDIT_H

#include <gtest/gtest.h>
#include <qaudit.h>

#include <filesystem>
#include <fstream>
#include <string>
#include <vector>

class Audit {
public:
    // The trace has the name of the test, and is in the folder in which the test runs.
    explicit Audit(const std::string &header) : name_(test_name() + ".trace"), trace_(name_) {
        EXPECT_EQ(qaudit_open_recorded(&q_), QAUDIT_OPEN);
        line(header);
    }
    // Losses that were not declared show only at the end.
    ~Audit() {
        qaudit_finish(&q_);
        qaudit_told told{};
        check(qaudit_verdict(&q_, &told) && told.kind == QAUDIT_ACCEPTED);
        qaudit_close(&q_);
    }
    Audit(const Audit &) = delete;
    Audit &operator=(const Audit &) = delete;

    // Judges a line of the trace, and keeps it.
    void line(const std::string &text) {
        const std::string whole = text + '\n';
        trace_ << whole << std::flush;
        check(qaudit_feed(&q_, reinterpret_cast<const uint8_t *>(whole.data()), whole.size()) ==
              QAUDIT_OPEN);
    }

private:
    static std::string test_name() {
        const auto *info = testing::UnitTest::GetInstance()->current_test_info();
        return std::string(info->test_suite_name()) + '.' + info->name();
    }
    std::string why() {
        std::vector<uint8_t> text(4096);
        size_t count = qaudit_around(&q_, 3, text.data(), text.size());
        if (count > text.size()) {
            text.resize(count);
            count = qaudit_around(&q_, 3, text.data(), text.size());
        }
        return std::string(text.begin(), text.begin() + static_cast<std::ptrdiff_t>(count));
    }
    void check(bool is_good) {
        if (is_good || has_failed_) return;
        has_failed_ = true;
        ADD_FAILURE() << why() << "the trace is " << std::filesystem::absolute(name_).string();
    }

    std::string name_;
    std::ofstream trace_;
    qaudit q_{};
    bool has_failed_ = false;
};

#endif
