// Four threads compute squares, and one that gets a number that is too large throws.

#include <future>
#include <iostream>
#include <stdexcept>
#include <vector>

static unsigned square(unsigned number)
{
    if (number > 0xFFFF)
        throw std::out_of_range("the square of " + std::to_string(number) + " doesn't fit");
    return number * number;
}

int main()
{
    std::vector<std::future<unsigned>> results;
    for (unsigned number : {3u, 300u, 30000u, 3000000u})
        results.push_back(std::async(std::launch::async, square, number));
    for (auto &result : results) {
        try {
            std::cout << result.get() << std::endl;
        } catch (const std::exception &error) {
            std::cout << error.what() << std::endl;
        }
    }
}
